//! The entry laid out as a tree, by nesting and counts alone.
//!
//! Laying out never looks at the text of a section: "Sections end by these counts; then the END record must stand
//! there." It stops where a record is not due, or where a count that it needs says nothing; the rules find the fault
//! there, and what lies beyond cannot matter. Records are counted from 0 in here.

use super::record::{count, records, Name, Record};
use std::ops::Range;

/// What a record is by its place in the entry.
#[derive(Clone, Copy, Debug, PartialEq, Eq)]
pub enum Role {
    /// One of the fourteen system records of an entry.
    System(Name),
    /// A record of a BIB section.
    Text,
    /// A heading record of the section.
    Heading(Name),
    /// A unit record of the section.
    Unit(Name),
    /// A value record of the section.
    Values(Name),
}

/// Where laying out came to an end.
#[derive(Clone, Debug, PartialEq, Eq)]
pub enum Stop {
    /// After ENDENTRY, with no record left.
    Complete,
    /// At a record that is not due; one of these was. None was due after ENDENTRY.
    NotDue(usize, Vec<Name>),
    /// At a system record whose counts do not tell how many records follow.
    NoCount(usize),
    /// Behind the last record: one of these was due, or text or table records if none is named.
    RanOut(Vec<Name>),
}

/// A BIB section.
#[derive(Clone, Debug)]
pub struct Bib {
    /// The BIB record.
    pub opening: usize,
    /// Its text records, as far as there are any.
    pub text: Range<usize>,
    /// The ENDBIB record.
    pub end: Option<usize>,
}

/// A COMMON or DATA section.
#[derive(Clone, Debug)]
pub struct Table {
    /// Which of the two.
    pub name: Name,
    /// The COMMON or DATA record.
    pub opening: usize,
    /// Columns, 1 to 18.
    pub columns: usize,
    /// Lines: those that DATA announces, one in COMMON.
    pub lines: usize,
    /// The ENDCOMMON or ENDDATA record.
    pub end: Option<usize>,
}

/// One field of a table.
#[derive(Clone, Copy)]
pub struct Cell<'a> {
    /// Its record.
    pub record: usize,
    /// Its field on that record, from 0.
    pub field: usize,
    /// Its column of the table, from 1.
    pub column: usize,
    /// Whether the table has such a column; if not, the field is unused.
    pub used: bool,
    /// The eleven bytes.
    pub bytes: &'a [u8],
}

impl<'a> Cell<'a> {
    /// "field's first" column on its record.
    pub fn first_column(&self) -> usize {
        11 * self.field + 1
    }

    /// The ten columns of a word.
    pub fn word(&self) -> &'a [u8] {
        &self.bytes[..10]
    }

    /// The eleventh column.
    pub fn eleventh(&self) -> u8 {
        self.bytes[10]
    }
}

impl Table {
    /// "k = columns/6 rounded up": how many records a line takes.
    pub fn records_per_line(&self) -> usize {
        self.columns.div_ceil(6)
    }

    /// How many records the section has: the headings, the units and the lines.
    pub fn records(&self) -> usize {
        (2 + self.lines) * self.records_per_line()
    }

    /// The records of row 0 (headings), row 1 (units) or row 1 + n (line n).
    pub fn row(&self, row: usize) -> Range<usize> {
        let first = self.opening + 1 + row * self.records_per_line();
        first..first + self.records_per_line()
    }

    /// The fields of one row, unused ones too, as far as the entry goes.
    pub fn cells<'s, 'a>(&'s self, tree: &'s Tree<'a>, row: usize) -> impl Iterator<Item = Cell<'a>> + 's {
        let place = self.row(row);
        let present = place.start..place.end.min(tree.records.len());
        let fields = present.flat_map(|record| (0..6).map(move |field| (record, field)));
        fields.map(move |(record, field)| {
            let column = 6 * (record - place.start) + field + 1;
            let bytes = tree.records[record].field(field);
            Cell { record, field, column, used: column <= self.columns, bytes }
        })
    }

    /// The used fields of the headings.
    pub fn headings<'s, 'a>(&'s self, tree: &'s Tree<'a>) -> impl Iterator<Item = Cell<'a>> + 's {
        self.cells(tree, 0).filter(|cell| cell.used)
    }
}

/// A subentry.
#[derive(Clone, Debug)]
pub struct Subentry {
    /// The SUBENT or NOSUBENT record.
    pub opening: usize,
    /// Whether it is NOSUBENT alone.
    pub absent: bool,
    /// The BIB section, unless NOBIB stands in its place.
    pub bib: Option<Bib>,
    /// The COMMON section, unless NOCOMMON stands in its place.
    pub common: Option<Table>,
    /// The DATA section, unless NODATA stands in its place or this is 001.
    pub data: Option<Table>,
    /// The ENDSUBENT record.
    pub end: Option<usize>,
}

impl Subentry {
    /// Its COMMON, then its DATA, those that there are.
    pub fn tables(&self) -> impl Iterator<Item = &Table> {
        self.common.iter().chain(self.data.iter())
    }

    /// Its sections and itself: the record that opens each, and the one that ends it.
    pub fn spans(&self) -> impl Iterator<Item = (usize, Option<usize>)> + '_ {
        let bib = self.bib.iter().map(|bib| (bib.opening, bib.end));
        let tables = self.tables().map(|table| (table.opening, table.end));
        bib.chain(tables).chain([(self.opening, self.end)])
    }
}

/// An entry laid out.
pub struct Tree<'a> {
    /// All records, also those beyond the stop.
    pub records: Vec<Record<'a>>,
    /// The roles of the records before the stop.
    pub roles: Vec<Role>,
    /// The subentries begun before the stop.
    pub subentries: Vec<Subentry>,
    /// Where laying out ended, and why.
    pub stop: Stop,
}

impl<'a> Tree<'a> {
    /// Lays out bytes whose length is a multiple of 81.
    pub fn of(bytes: &'a [u8]) -> Tree<'a> {
        let tree = Tree { records: records(bytes), roles: Vec::new(), subentries: Vec::new(), stop: Stop::Complete };
        let mut layout = Layout { tree };
        if let Err(stop) = layout.entry() {
            layout.tree.stop = stop;
        }
        layout.tree
    }

    /// The subentry's own three digits.
    pub fn number(&self, subentry: &Subentry) -> &'a [u8] {
        self.records[subentry.opening].columns(20, 22)
    }
}

/// Takes the records one after another.
struct Layout<'a> {
    tree: Tree<'a>,
}

impl<'a> Layout<'a> {
    /// The next record.
    fn next(&self) -> usize {
        self.tree.roles.len()
    }

    /// Takes the next record if it bears one of the names that are due.
    fn system(&mut self, due: &[Name]) -> Result<Name, Stop> {
        let Some(&record) = self.tree.records.get(self.next()) else {
            return Err(Stop::RanOut(due.to_vec()));
        };
        match Name::of(record).filter(|name| due.contains(name)) {
            Some(name) => {
                self.tree.roles.push(Role::System(name));
                Ok(name)
            }
            None => Err(Stop::NotDue(self.next(), due.to_vec())),
        }
    }

    /// Takes records of a section, whatever they hold.
    fn take(&mut self, role: Role, wanted: usize) -> Result<(), Stop> {
        let there = wanted.min(self.tree.records.len() - self.next());
        self.tree.roles.extend(std::iter::repeat_n(role, there));
        if there < wanted {
            return Err(Stop::RanOut(Vec::new()));
        }
        Ok(())
    }

    /// The subentry that is being laid out.
    fn current(&mut self) -> &mut Subentry {
        self.tree.subentries.last_mut().expect("a subentry has begun")
    }

    /// "ENTRY; one or more subentries; ENDENTRY."
    fn entry(&mut self) -> Result<(), Stop> {
        self.system(&[Name::Entry])?;
        let mut due = vec![Name::Subent];
        loop {
            let opening = self.next();
            let name = self.system(&due)?;
            if name == Name::EndEntry {
                break;
            }
            let absent = name == Name::NoSubent;
            self.tree.subentries.push(Subentry { opening, absent, bib: None, common: None, data: None, end: None });
            if !absent {
                self.subentry()?;
            }
            due = vec![Name::Subent, Name::NoSubent, Name::EndEntry];
        }
        if self.next() < self.tree.records.len() {
            return Err(Stop::NotDue(self.next(), Vec::new()));
        }
        Ok(())
    }

    /// "SUBENT, then BIB section or NOBIB, then COMMON section or NOCOMMON, then (except in 001) DATA section or
    /// NODATA, then ENDSUBENT."
    fn subentry(&mut self) -> Result<(), Stop> {
        if self.system(&[Name::Bib, Name::NoBib])? == Name::Bib {
            self.bib()?;
        }
        if self.system(&[Name::Common, Name::NoCommon])? == Name::Common {
            self.table(Name::Common)?;
        }
        let first = self.tree.subentries.len() == 1;
        if !first && self.system(&[Name::Data, Name::NoData])? == Name::Data {
            self.table(Name::Data)?;
        }
        let end = self.next();
        self.system(&[Name::EndSubent])?;
        self.current().end = Some(end);
        Ok(())
    }

    /// The text of a BIB section, as many records as N2 says, and ENDBIB.
    fn bib(&mut self) -> Result<(), Stop> {
        let opening = self.next() - 1;
        let wanted = count(self.tree.records[opening].n2()).ok_or(Stop::NoCount(opening))?;
        let left = self.tree.records.len() - self.next();
        let there = usize::try_from(wanted).map_or(left, |wanted| wanted.min(left));
        let text = self.next()..self.next() + there;
        self.current().bib = Some(Bib { opening, text, end: None });
        self.take(Role::Text, usize::try_from(wanted).unwrap_or(usize::MAX))?;
        let end = self.next();
        self.system(&[Name::EndBib])?;
        self.current().bib.as_mut().expect("the section has begun").end = Some(end);
        Ok(())
    }

    /// A COMMON or DATA section: "COMMON has exactly 3k records, DATA (2 + lines) times k".
    fn table(&mut self, name: Name) -> Result<(), Stop> {
        let opening = self.next() - 1;
        let record = self.tree.records[opening];
        let columns = count(record.n1()).filter(|n| (1..=18).contains(n)).ok_or(Stop::NoCount(opening))?;
        let lines = match name {
            Name::Common => Some(1),
            _ => count(record.n2()).filter(|n| (1..=20_000).contains(n)),
        };
        let lines = lines.ok_or(Stop::NoCount(opening))?;
        let table = Table { name, opening, columns: columns as usize, lines: lines as usize, end: None };
        let k = table.records_per_line();
        *self.section(name) = Some(table);
        self.take(Role::Heading(name), k)?;
        self.take(Role::Unit(name), k)?;
        self.take(Role::Values(name), lines as usize * k)?;
        let end = self.next();
        self.system(&[if name == Name::Common { Name::EndCommon } else { Name::EndData }])?;
        self.section(name).as_mut().expect("the section has begun").end = Some(end);
        Ok(())
    }

    /// The place of a table in the subentry that is being laid out.
    fn section(&mut self, name: Name) -> &mut Option<Table> {
        match name {
            Name::Common => &mut self.current().common,
            _ => &mut self.current().data,
        }
    }
}
