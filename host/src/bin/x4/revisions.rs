//! `x4 merge` and `x4 subentry`: a held entry and a revision of it.

use super::output::{output, replace};
use super::{called, options, read, refused_entry, say, Done, Trouble};
use glockenbeacon::json::{object, text};
use glockenbeacon::revisions::{merged, Origins, RevisionRefusal, Which};
use glockenbeacon::transmission::accession;
use glockenbeacon::{library, RECORD};
use std::ffi::{OsStr, OsString};
use std::process::ExitCode;

pub const HELP_MERGE: &str = "\
x4 merge HELD REVISION [-o OUT [--force]]

Merges a good entry that is held and a revision of it, both of one accession. Of each subentry that only one of the two has, that one
is taken, SUBENT or NOSUBENT; of one that both have, that of the revision, unless its date is earlier. Their records are taken byte
for byte and stand in number order. ENTRY and ENDENTRY are the revision's, with the later of the two ENTRY dates and the true count.

The merge is judged again, as another 001 may lack what a table leans on, and two good entries may be too long together:

  60  one of the two is refused: which, and why; the held one where both are
  61  the two have different accessions
  63  the merge is refused: where in the merge, and which record of which entry that is

With -o the merge is written to OUT, and otherwise to standard output. A file that is there is replaced only with --force. OUT is
written whole or not at all: to another file of its folder first, which then takes its name. OUT may be HELD or REVISION itself.

Exit status: 0 if the merge is delivered, 1 if it is refused, 2 if something went wrong; then nothing is written.
";

pub const HELP_SUBENTRY: &str = "\
x4 subentry [--json] HELD REVISION N

Prints the records of subentry N, from SUBENT to ENDSUBENT, of whichever of two good entries of one accession holds it: the only one
that has it, or, where both do, the revision, unless its date for N is earlier. With --json it prints an object instead: the
subentry, which of the two, 'held' or 'revision', its file, the first byte there, counted from 0, the length in bytes, and the date.

  60  one of the two is refused: which, and why; the held one where both are
  61  the two have different accessions
  32  neither has that subentry
  62  the one to hand out is NOSUBENT

Exit status: 0 if it is handed out, 1 if it is refused, 2 if something went wrong.
";

/// The two files and their bytes.
struct Pair {
    files: [OsString; 2],
    held: Vec<u8>,
    revision: Vec<u8>,
}

impl Pair {
    fn of(files: &[OsString], page: &str) -> Result<Pair, Trouble> {
        let [held, revision] = files else {
            return Err(Trouble::Failed(format!("a held entry and a revision are two files; see x4 help {page}")));
        };
        if held == "-" && revision == "-" {
            return Err(Trouble::Failed("only one of the two can be standard input".into()));
        }
        let files = [held.clone(), revision.clone()];
        Ok(Pair { held: read(held)?, revision: read(revision)?, files })
    }

    fn file(&self, which: Which) -> &OsStr {
        &self.files[which as usize]
    }

    /// A refusal in words, with its place and the entry that it is about.
    fn refused(&self, refusal: &RevisionRefusal) -> Trouble {
        let files = Which::both().map(|which| called(self.file(which)));
        let own = format!("refusal {}: {}", refusal.number, refusal.meaning());
        Trouble::Refused(match (refusal.number, refusal.which, refusal.refusal) {
            (60, Some(which), Some(entry)) => {
                let input = which.of(&self.held, &self.revision);
                format!("{}: {own}\n{}", called(self.file(which)), refused_entry(input, &entry))
            }
            (61, _, _) => {
                let [held, revision] = [&self.held, &self.revision].map(|entry| accession(entry).unwrap_or("?"));
                format!("{own}: {held} in {}, {revision} in {}", files[0], files[1])
            }
            (63, _, Some(merge)) => {
                let mut said = format!("refusal 63: the merge of {} and {} is refused\n", files[0], files[1]);
                let Some(origins) = Origins::of(&self.held, &self.revision) else { return Trouble::Refused(said) };
                let records = origins.records(&self.held, &self.revision);
                said += &refused_entry(&records, &merge);
                if let Some((which, record)) = origins.place(merge.record) {
                    let place = merge.record;
                    let (entry, file) = (which.in_words(), called(self.file(which)));
                    said += &format!("  where:    record {place} of the merge is record {record} of {entry}, {file}\n");
                } else {
                    let records = [self.held.len(), self.revision.len(), refusal.length].map(|bytes| bytes / RECORD);
                    said += &format!("  where:    {} and {} records make {}\n", records[0], records[1], records[2]);
                }
                said
            }
            _ => own,
        })
    }
}

pub fn merge(arguments: &[OsString]) -> Done {
    let (target, rest) = output(arguments, "merge")?;
    let ([force], files) = options(&rest, ["--force"])?;
    let target = target.filter(|target| target != "-");
    if force && target.is_none() {
        return Err(Trouble::Failed("--force goes with -o OUT; see x4 help merge".into()));
    }
    let pair = Pair::of(&files, "merge")?;
    let merge = merged(&pair.held, &pair.revision).map_err(|refusal| pair.refused(&refusal))?;
    match target {
        Some(target) => replace(&target, &merge, force)?,
        None => say(&merge)?,
    }
    Ok(ExitCode::SUCCESS)
}

pub fn subentry(arguments: &[OsString]) -> Done {
    let ([json], words) = options(arguments, ["--json"])?;
    let [files @ .., number] = words.as_slice() else {
        return Err(Trouble::Failed("subentry takes two files and a number; see x4 help subentry".into()));
    };
    let parsed = number.to_str().and_then(|number| number.parse::<u32>().ok());
    let Some(subentry) = parsed.filter(|_| files.len() == 2) else {
        return Err(Trouble::Failed("subentry takes two files and a number; see x4 help subentry".into()));
    };
    let pair = Pair::of(files, "subentry")?;
    let found = library::subentry(&pair.held, &pair.revision, subentry);
    let found = found.map_err(|refusal| match refusal.number {
        32 | 62 => Trouble::Refused(format!("subentry {subentry}: {refusal}")),
        _ => pair.refused(&refusal),
    })?;
    if !json {
        say(found.bytes)?;
        return Ok(ExitCode::SUCCESS);
    }
    let name = if found.which == Which::Held { "held" } else { "revision" };
    let object = object(&[
        ("subentry", subentry.to_string()),
        ("which", text(name)),
        ("file", text(&pair.file(found.which).to_string_lossy())),
        ("first", found.first.to_string()),
        ("length", found.bytes.len().to_string()),
        ("date", text(found.date())),
    ]);
    say((object + "\n").as_bytes())?;
    Ok(ExitCode::SUCCESS)
}
