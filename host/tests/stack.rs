//! How much stack the proved functions take. Each call is made on a stack of its own that is painted before, and the
//! lowest byte that is no longer the paint is looked for. Writing a number may take 256 bytes (document 02, M-103); no
//! limit is set for the other calls, and their figures are said (docs/PERFORMANCE.md has them).

mod common;

#[cfg(not(all(proved, any(target_arch = "x86_64", target_arch = "aarch64"))))]
#[test]
fn writing_takes_little_stack() {
    common::say("no proved archives are linked, or the processor is another: the stack was not measured");
}

#[cfg(all(proved, any(target_arch = "x86_64", target_arch = "aarch64")))]
mod measured {
    use crate::common::{sample, say, transmission, wide};
    use glockenbeacon::cinda::LinesRefusal;
    use glockenbeacon::generate::{self, Random};
    use glockenbeacon::{reference, words, Decimal, FieldRead, NoAnswer, Value};
    use std::arch::asm;
    use std::collections::BTreeSet;

    /// The most that writing a number may take.
    const LIMIT: usize = 256;

    extern "C" {
        // By their addresses alone: `call_on` makes every call. `include/x4.h` has what they take.
        fn x4_write_number();
        fn x4_read_number();
        fn x4_judge();
        fn x4_value();
        fn x4_heading();
        fn x4_unit();
        fn x4_passage();
        fn x4_copy();
        fn x4_judge_file();
        fn x4_entry_length();
        fn x4_copy_file();
        fn x4_explain();
        fn x4_explain_file();
        fn x4_index();
        fn x4_index_row();
        fn x4_index_value();
        fn x4_index_heading();
        fn x4_index_unit();
        fn x4_index_passage();
        fn x4_walk();
        fn x4_walk_next();
        fn x4_double();
        fn x4_index_double();
        fn x4_read_double();
        fn x4_as_double();
        fn x4_as_double_kind();
        fn x4_cinda_check();
        fn x4_cinda_line();
        fn x4_cinda_pieces();
        fn x4_cinda_back();
        fn x4_decay();
        fn x4_decay_in();
        fn x4_decay_head();
        fn x4_decay_group();
        fn x4_decay_type();
        fn x4_decay_energy();
        fn x4_subentry();
        fn x4_merge();
    }

    type Function = unsafe extern "C" fn();

    /// The most words that a call takes.
    type Words = [u64; 9];

    /// Calls a C function with up to nine words on another stack, which ends 32 bytes above `top`: its answer, and the double
    /// where it returns one.
    #[cfg(target_arch = "x86_64")]
    unsafe fn call_on(top: *mut u128, function: Function, words: Words) -> (u64, f64) {
        let (answer, double);
        // the seventh word, the eighth and the ninth stand on the stack, above the return address
        *top = u128::from(words[6]) | u128::from(words[7]) << 64;
        *top.add(1) = u128::from(words[8]);
        asm!(
            "mov r12, rsp",
            "mov rsp, {top}",
            "call {function}",
            "mov rsp, r12",
            top = in(reg) top,
            function = in(reg) function,
            inout("rdi") words[0] => _,
            inout("rsi") words[1] => _,
            inout("rdx") words[2] => _,
            inout("rcx") words[3] => _,
            inout("r8") words[4] => _,
            inout("r9") words[5] => _,
            lateout("rax") answer,
            lateout("xmm0") double,
            out("r12") _,
            clobber_abi("C"),
        );
        (answer, double)
    }

    /// The same on Arm, where eight words go in registers and the ninth stands on the stack.
    #[cfg(target_arch = "aarch64")]
    unsafe fn call_on(top: *mut u128, function: Function, words: Words) -> (u64, f64) {
        let (answer, double);
        *top = u128::from(words[8]);
        asm!(
            "mov x20, sp",
            "mov sp, {top}",
            "blr {function}",
            "mov sp, x20",
            top = in(reg) top,
            function = in(reg) function,
            inout("x0") words[0] => answer,
            inout("x1") words[1] => _,
            inout("x2") words[2] => _,
            inout("x3") words[3] => _,
            inout("x4") words[4] => _,
            inout("x5") words[5] => _,
            inout("x6") words[6] => _,
            inout("x7") words[7] => _,
            lateout("v0") double,
            out("x20") _,
            clobber_abi("C"),
        );
        (answer, double)
    }

    /// A call of the archives, the stack that it is made on, and the most that it has taken so far.
    struct Measured {
        name: &'static str,
        function: Function,
        stack: Vec<u128>,
        most: usize,
        /// What the last call left where a double is returned.
        double: f64,
    }

    impl Measured {
        fn new(name: &'static str, function: Function) -> Measured {
            Measured { name, function, stack: vec![0; 4096], most: 0, double: 0.0 }
        }

        /// Makes the call on a stack painted with a byte: its answer, and the bytes from the caller down to the lowest
        /// that was touched. The return address is among them where the processor keeps it on the stack.
        fn painted(&mut self, paint: u8, words: Words) -> (u64, usize) {
            let plain = u128::from_ne_bytes([paint; 16]);
            self.stack.fill(plain);
            let top = self.stack.len() - 2;
            // SAFETY: the words are what the function takes, and 64 kB are more than it needs by far.
            let (answer, double) = unsafe { call_on(self.stack.as_mut_ptr().add(top), self.function, words) };
            self.double = double;
            let low = self.stack[..top].iter().position(|&word| word != plain).unwrap_or(top);
            let kept = self.stack[low].to_ne_bytes().iter().position(|&byte| byte != paint).unwrap_or(0);
            (answer, (top - low) * 16 - if low == top { 0 } else { kept })
        }

        /// By two paints, since a byte that is stored can be the paint itself.
        fn taken(&mut self, words: Words) -> (u64, usize) {
            let (answer, one) = self.painted(0xa5, words);
            (answer, one.max(self.painted(0x5a, words).1))
        }

        /// The answer of a call with its words. A figure above the others counts if it comes again: a signal in between can only add.
        fn call<const N: usize>(&mut self, words: [u64; N]) -> u64 {
            let words = std::array::from_fn(|place| words.get(place).copied().unwrap_or(0));
            let (answer, taken) = self.taken(words);
            if taken > self.most {
                let again = (0..5).map(|_| self.taken(words).1).min().unwrap_or(taken);
                self.most = self.most.max(again);
            }
            answer
        }

        fn say(&self) {
            say(&format!("stack below the caller: {} takes {} bytes", self.name, self.most));
        }
    }

    fn bytes(slice: &[u8]) -> [u64; 2] {
        [slice.as_ptr() as u64, slice.len() as u64]
    }

    fn lent<T>(slice: &mut [T]) -> u64 {
        slice.as_mut_ptr() as u64
    }

    /// Which way the layout of a number goes, as `crates/paper_canonical/specs/Closed.antt` says: by the count of the
    /// coefficient's digits and by the power.
    fn branch(digits: i64, power: i64) -> &'static str {
        let down = -power;
        match power {
            0..=2 => "zeros before the point",
            3.. if power.to_string().trim_end_matches('0') == "1" => "an exponent made shorter by a zero",
            3.. => "an exponent",
            _ if down <= digits => "the point among the digits",
            _ if down <= digits + 2 => "zeros behind the point",
            _ => match down - (10i64.pow((down - digits).to_string().len() as u32) - 1) {
                places if places <= 0 => "a lower exponent, digits before the point",
                places if places < digits => "a lower exponent, digits on both sides",
                _ => "a lower exponent, digits behind the point",
            },
        }
    }

    /// Decimals by every way of the layout, that fit and that do not: 1 to 20 digits, powers of all sizes, both signs.
    fn decimals() -> Vec<(Decimal, &'static str)> {
        let mut powers: BTreeSet<i64> = (-45..=45).chain([i32::MIN.into(), i32::MAX.into()]).collect();
        for size in 1..10 {
            (-22..=2).for_each(|near| powers.extend([10i64.pow(size) + near, -10i64.pow(size) + near]));
        }
        let mut decimals = Vec::new();
        for digits in 1..=20 {
            let coefficient: u64 = "12345678912345678912"[..digits].parse().expect("it has 64 bits");
            for &power in powers.iter() {
                for negative in [false, true] {
                    let decimal = Decimal { negative, coefficient, power: power as i32 };
                    decimals.push((decimal, branch(digits as i64, power)));
                }
            }
        }
        let given = [(0, 0), (0, -5), (100, 0), (u64::MAX, i32::MAX), (10u64.pow(19), i32::MIN), (12_345_678_901, 0)];
        decimals.extend(given.map(|(coefficient, power)| (Decimal { negative: false, coefficient, power }, "given")));
        decimals
    }

    #[test]
    fn writing_takes_little_stack() {
        let mut write = Measured::new("x4_write_number", x4_write_number);
        let mut seen = BTreeSet::new();
        for (decimal, branch) in decimals() {
            let (mut field, mut expected) = (*b"###########", *b"###########");
            let Decimal { negative, coefficient, power } = decimal;
            let answer = write.call([negative.into(), coefficient, power as u32 as u64, lent(&mut field), 11]);
            let number = reference::write_number(decimal, &mut expected).map_or_else(|refused| refused.number, |()| 0);
            assert!(answer as u32 == number && field == expected, "{decimal}");
            seen.insert((branch, number));
        }
        // eight ways, each done and refused by 41, and the two that the given ones have
        assert_eq!(seen.len(), 18, "{seen:?}");
        for length in [0, 1, 10, 12] {
            let mut field = [b'#'; 12];
            let answer = write.call([0, 145, -3i32 as u32 as u64, lent(&mut field), length]);
            assert!(answer as u32 == 40 && field == [b'#'; 12]);
        }
        write.say();
        assert!(write.most <= LIMIT, "writing a number takes {} bytes of stack, more than {LIMIT}", write.most);
    }

    #[test]
    fn reading_is_measured() {
        let mut read = Measured::new("x4_read_number", x4_read_number);
        let mut random = Random::seeded(103);
        let mut value = [0u64; 8];
        let mut seen = BTreeSet::new();
        for _ in 0..3000 {
            let field = generate::number_field(&mut random);
            let length = if random.once_in(20) { random.below(11) } else { 11 };
            let [first, length] = bytes(&field[..length]);
            seen.insert(read.call([first, length, lent(&mut value)]));
        }
        assert_eq!(seen, BTreeSet::from([0, 15, 40]));
        read.say();
    }

    /// The sample, a table of 18 columns, good and damaged entries of every cause, larger ones, and none.
    fn entries() -> Vec<Vec<u8>> {
        let mut entries = vec![sample(), wide(18), Vec::new()];
        for seed in 0..2 * generate::CAUSES.len() {
            let mut random = Random::seeded(seed as u64);
            let mut sheet = generate::entry(&mut random);
            entries.push(sheet.bytes.clone());
            let _ = generate::damage(&mut random, &mut sheet, seed % generate::CAUSES.len());
            entries.push(sheet.bytes);
        }
        entries.extend(generate::SHAPES.map(|shape| generate::large(&mut Random::seeded(1), shape, 300)));
        entries
    }

    /// Transmissions of these entries, of generated ones good and damaged, and none.
    #[test]
    fn transmissions_are_measured() {
        let mut judge = Measured::new("x4_judge_file", x4_judge_file);
        let mut begins = Measured::new("x4_entry_length", x4_entry_length);
        let mut copy = Measured::new("x4_copy_file", x4_copy_file);
        let mut totals = [0u64; 4];
        // how often each was answered, and refused or 0
        let mut said = [[0; 2]; 3];
        let mut note = |call: usize, no: bool| said[call][usize::from(no)] += 1;
        let mut files: Vec<Vec<u8>> = entries().iter().map(|entry| transmission(&[entry, entry])).collect();
        files.extend((0..100).map(|seed| generate::file_input(&mut Random::seeded(seed))));
        for file in files {
            let [first, length] = bytes(&file);
            note(0, judge.call([first, length, lent(&mut totals)]) != 0);
            for at in [0, 81, 82, length, u64::MAX] {
                note(1, begins.call([first, length, at]) == 0);
            }
            for room in [file.len(), 80] {
                let mut buffer = vec![b'#'; room];
                note(2, copy.call([first, length, lent(&mut buffer), room as u64]) != 0);
            }
        }
        assert!(said.iter().flatten().all(|&times| times > 0), "{said:?}");
        [judge, begins, copy].iter().for_each(Measured::say);
    }

    /// Verdicts with their reasons: every kind of these, of entries and of transmissions.
    #[test]
    fn reasons_are_measured() {
        let mut entry = Measured::new("x4_explain", x4_explain);
        let mut file = Measured::new("x4_explain_file", x4_explain_file);
        let (mut totals, mut facts, mut characters) = ([0u64; 4], [0u64; 3], [0u8; 8]);
        let mut seen = BTreeSet::new();
        for input in entries() {
            let whole = transmission(&[&input, &input]);
            for (call, input) in [(&mut entry, &input), (&mut file, &whole)] {
                let [first, length] = bytes(input);
                let arrays = [lent(&mut totals), lent(&mut facts), lent(&mut characters)];
                call.call([first, length, arrays[0], arrays[1], arrays[2]]);
                seen.insert((call.name, facts[0]));
            }
        }
        assert_eq!(seen.len(), 2 * 7, "{seen:?}");
        [entry, file].iter().for_each(Measured::say);
    }

    /// An index made of these entries, one by the identifiers in their records where they are refused, and questions by it:
    /// also by numbers that are altered, cut or none.
    #[test]
    fn indexes_are_measured() {
        let mut make = Measured::new("x4_index", x4_index);
        let mut row = Measured::new("x4_index_row", x4_index_row);
        let mut value = Measured::new("x4_index_value", x4_index_value);
        let mut heading = Measured::new("x4_index_heading", x4_index_heading);
        let mut unit = Measured::new("x4_index_unit", x4_index_unit);
        let mut passage = Measured::new("x4_index_passage", x4_index_passage);
        let (mut rows, mut number, mut part) = ([0u64; 1], [0u64; 8], [0u64; 3]);
        let mut said = vec![BTreeSet::new(); 6];
        for (turn, entry) in entries().iter().enumerate() {
            let [first, length] = bytes(entry);
            for room in [4990, 3] {
                let mut index = vec![7u32; room];
                said[0].insert(make.call([first, length, lent(&mut index), room as u64, lent(&mut rows)]) & 0xff);
            }
            let mut index = generate::index_of(entry);
            match turn % 4 {
                0 | 1 => {}
                2 => generate::alter_index(&mut Random::seeded(turn as u64), &mut index),
                _ => drop(index.pop()),
            }
            let [numbers, count] = [index.as_ptr() as u64, index.len() as u64];
            for (n, section) in [(1, 1), (2, 1), (2, 2), (3, 2), (2, 3), (999, 1)] {
                said[1].insert(row.call([numbers, count, n, lent(&mut rows)]));
                for (line, column) in [(1, 1), (1, 2), (1, 18), (9, 1)] {
                    let [e, l, i, c] = [first, length, numbers, count];
                    said[2].insert(value.call([e, l, i, c, n, section, line, column, lent(&mut number)]));
                    said[3].insert(heading.call([e, l, i, c, n, section, column, lent(&mut part)]));
                    said[4].insert(unit.call([e, l, i, c, n, section, column, lent(&mut part)]));
                }
            }
            for (n, keyword, pointer) in [(1, "TITLE     ", b' '), (2, "REACTION  ", b'1'), (2, "REACTION  ", b' ')] {
                let [place, ten] = bytes(keyword.as_bytes());
                let words = [first, length, numbers, count, n, place, ten, pointer.into(), lent(&mut part)];
                said[5].insert(passage.call(words));
            }
        }
        let due = [
            &[0, 31, 38][..],
            &[0, 32, 38],
            &[0, 32, 33, 34, 35, 38, 39],
            &[0, 32, 33, 35, 38, 39],
            &[0, 32, 33, 35, 38, 39],
            &[0, 32, 33, 36, 38],
        ];
        for (said, due) in said.iter().zip(due) {
            assert!(due.iter().all(|number| said.contains(number)), "{said:?}, and {due:?} are due");
        }
        [make, row, value, heading, unit, passage].iter().for_each(Measured::say);
    }

    /// Walks over these entries, up to their end, and of any numbers.
    #[test]
    fn walks_are_measured() {
        let mut begin = Measured::new("x4_walk", x4_walk);
        let mut next = Measured::new("x4_walk_next", x4_walk_next);
        let (mut place, mut number) = ([0u64; 3], [0u64; 8]);
        let (mut begun, mut said, mut random) = (BTreeSet::new(), BTreeSet::new(), Random::seeded(112));
        for entry in entries() {
            let [first, length] = bytes(&entry);
            let mut walks: Vec<[u32; 5]> = (0..6).map(|_| generate::walk(&mut random, &entry)).collect();
            for (n, section) in [(1, 1), (2, 1), (2, 2), (3, 2), (2, 3), (999, 1)] {
                let mut walk = [0u32; 5];
                begun.insert(begin.call([first, length, n, section, lent(&mut walk)]) & 0xff);
                walks.push(walk);
            }
            for mut walk in walks {
                for _ in 0..20 {
                    let before = walk;
                    // Each measure is several calls, so that the walk is put back before the next step.
                    let word = next.call([first, length, lent(&mut walk), lent(&mut place), lent(&mut number)]);
                    said.insert((word, place[0]));
                    walk = before;
                    reference::walk_next(&entry, &mut walk);
                }
            }
        }
        assert!([0, 31, 32, 33].iter().all(|number| begun.contains(number)), "{begun:?}");
        assert!([(0, 0), (0, 1), (15, 1)].iter().all(|said_so| said.contains(said_so)), "{said:?}");
        [begin, next].iter().for_each(Measured::say);
    }

    /// The five calls for doubles: of these entries in full and by an index, of fields, and of decimals in hand. Each double
    /// is the nearest one to the decimal that the reference says, and nothing is stored where its word has another kind.
    #[test]
    fn doubles_are_measured() {
        let mut full = Measured::new("x4_double", x4_double);
        let mut by_index = Measured::new("x4_index_double", x4_index_double);
        let mut read = Measured::new("x4_read_double", x4_read_double);
        let mut hand = Measured::new("x4_as_double", x4_as_double);
        let mut hand_kind = Measured::new("x4_as_double_kind", x4_as_double_kind);
        let mut place: [f64; 1];
        // what was said by which call: its number and its kind
        let mut said = vec![BTreeSet::new(); 4];
        for (turn, entry) in entries().iter().enumerate() {
            let [first, length] = bytes(entry);
            let mut index = generate::index_of(entry);
            match turn % 4 {
                0 | 1 => {}
                2 => generate::alter_index(&mut Random::seeded(turn as u64), &mut index),
                _ => drop(index.pop()),
            }
            let [numbers, count] = [index.as_ptr() as u64, index.len() as u64];
            for (n, section) in [(1, 1), (2, 1), (2, 2), (3, 2), (2, 3), (999, 1)] {
                for (line, column) in [(1, 1), (1, 2), (1, 18), (9, 1)] {
                    let [a, b, c, d] = [n, section, line, column].map(|number| number as u32);
                    place = [MARK];
                    let word = full.call([first, length, n, section, line, column, lent(&mut place)]);
                    said[0].insert(returned(stored(place, word), word, reference::value(entry, a, b, c, d)));
                    place = [MARK];
                    let words = [first, length, numbers, count, n, section, line, column, lent(&mut place)];
                    let word = by_index.call(words);
                    let due = reference::index_value(entry, &index, a, b, c, d);
                    said[1].insert(returned(stored(place, word), word, due));
                }
            }
        }
        let mut random = Random::seeded(107);
        for _ in 0..3000 {
            let field = generate::number_field(&mut random);
            let length = if random.once_in(20) { random.below(11) } else { 11 };
            let [first, length] = bytes(&field[..length]);
            place = [MARK];
            let word = read.call([first, length, lent(&mut place)]);
            said[2].insert(returned(stored(place, word), word, reference::read_number(&field[..length as usize])));
            let Decimal { negative, mut coefficient, mut power } = generate::decimal(&mut random);
            if random.once_in(2) {
                (coefficient, power) = (coefficient % 20_000_000_000, random.below(61) as i32 - 30);
            }
            let words = [negative.into(), coefficient, power as u32 as u64];
            let kind = hand_kind.call(words);
            hand.call(words);
            let value = Value::Number(Decimal { negative, coefficient, power });
            said[3].insert(returned(hand.double, kind << 48, Ok(FieldRead { value, digits: 0 })));
        }
        let due = [
            &[(0, 0), (0, 1), (0, 2), (31, 0), (32, 0), (33, 0), (34, 0), (35, 0)][..],
            &[(0, 0), (0, 1), (0, 2), (32, 0), (33, 0), (34, 0), (35, 0), (38, 0), (39, 0)],
            &[(0, 0), (0, 1), (0, 2), (15, 0), (40, 0)],
            &[(0, 1), (0, 2)],
        ];
        for (said, due) in said.iter().zip(due) {
            assert!(due.iter().all(|told| said.contains(told)), "{said:?}, and {due:?} are due");
        }
        [full, by_index, read, hand, hand_kind].iter().for_each(Measured::say);
    }

    /// The four calls about lines: good and damaged ones, at the limits and generated. Each answer is the reference's.
    #[test]
    fn lines_are_measured() {
        let mut check = Measured::new("x4_cinda_check", x4_cinda_check);
        let mut apart = Measured::new("x4_cinda_line", x4_cinda_line);
        let mut pieces = Measured::new("x4_cinda_pieces", x4_cinda_pieces);
        let mut back = Measured::new("x4_cinda_back", x4_cinda_back);
        let (mut numbers, mut least, mut greatest, mut places) = ([0u64; 14], [0u64; 8], [0u64; 8], [0u64; 12]);
        let mut said = vec![BTreeSet::new(); 4];
        let mut note = |call: usize, word: u64, due: Result<(), LinesRefusal>| {
            assert_eq!(word, words::lines_word(due));
            said[call].insert(word & 0xff);
        };
        let generated = (0..300).map(|seed| generate::cinda_input(&mut Random::seeded(seed)));
        let some = [Vec::new(), include_bytes!("../data/sample.cinda").to_vec()];
        for lines in some.into_iter().chain(generated) {
            let [first, length] = bytes(&lines);
            note(0, check.call([first, length]), reference::cinda_check(&lines));
            for line in [0, 1, 2, lines.len() as u32 / 126] {
                let lent = [lent(&mut numbers), lent(&mut least), lent(&mut greatest), lent(&mut places)];
                let word = apart.call([first, length, line.into(), lent[0], lent[1], lent[2]]);
                note(1, word, reference::cinda_line(&lines, line).map(drop));
                let word = pieces.call([first, length, line.into(), lent[3]]);
                note(2, word, reference::cinda_pieces(&lines, line).map(drop));
            }
            for room in [lines.len(), lines.len().saturating_sub(1)] {
                let mut buffer = vec![b'#'; room];
                let due = reference::cinda_back(&lines, &mut buffer.clone());
                note(3, back.call([first, length, lent(&mut buffer), room as u64]), due);
            }
        }
        let faults = || (70..=77).chain([0]);
        let due: [BTreeSet<u64>; 4] = [
            faults().collect(),
            faults().chain([34]).collect(),
            faults().chain([34]).collect(),
            faults().chain([37]).collect(),
        ];
        assert_eq!(said, due);
        [check, apart, pieces, back].iter().for_each(Measured::say);
    }

    /// The six calls about codes: of generated entries and their passages, and of their runs. Each answer is the reference's.
    #[test]
    fn codes_are_measured() {
        let mut full = Measured::new("x4_decay", x4_decay);
        let mut in_hand = Measured::new("x4_decay_in", x4_decay_in);
        let mut head = Measured::new("x4_decay_head", x4_decay_head);
        let mut group = Measured::new("x4_decay_group", x4_decay_group);
        let mut kind = Measured::new("x4_decay_type", x4_decay_type);
        let mut energy = Measured::new("x4_decay_energy", x4_decay_energy);
        let (mut run, mut places, mut half) = ([0u64; 1], [0u64; 15], [0u64; 8]);
        let (mut numbers, mut place, mut value) = ([0u64; 4], [0u64; 2], [0u64; 8]);
        let mut said = vec![BTreeSet::new(); 6];
        let mut note = |call: usize, word: u64, due: u64| {
            assert_eq!(word, due);
            said[call].insert(word & 0xff);
        };
        let generated = (0..200).map(|seed| generate::decay_entry(&mut Random::seeded(seed)));
        let long = generate::long_entry(2_000, "DG/B+,405.0/1.E5,0.055,A,,,,1.,,X,1./2./3.,.5,");
        for entry in [include_bytes!("../data/decay.x4").to_vec(), long].into_iter().chain(generated) {
            let [first, length] = bytes(&entry);
            for (n, pointer, code) in [(1, b' ', 1), (2, b' ', 1), (2, b' ', 2), (1, b'1', 1), (9, b' ', 1)] {
                for room in [entry.len(), 10] {
                    let mut out = vec![b'#'; room];
                    let due = reference::decay(&entry, n, pointer, code, &mut out.clone());
                    let slice = [lent(&mut out), room as u64, lent(&mut run)];
                    let [out_first, out_room, long] = slice;
                    let asked = [first, length, n.into(), pointer.into(), code.into(), out_first, out_room, long];
                    note(0, full.call(asked), words::code_word(due.map(drop)));
                    let part = reference::passage(&entry, n, b"DECAY-DATA", pointer);
                    let passage = part.map_or(&entry[..0], |part| part.of(&entry)).to_vec();
                    let due = reference::decay_in(&passage, code, &mut vec![0; room]);
                    let [own, size] = bytes(&passage);
                    let word = in_hand.call([own, size, code.into(), out_first, out_room, long]);
                    note(1, word, words::code_word(due.map(drop)));
                }
            }
        }
        for seed in 0..400 {
            let random = &mut Random::seeded(seed);
            let text = if seed % 2 == 0 { generate::code(random) } else { generate::damaged_code(random) };
            let [first, length] = bytes(text.as_bytes());
            let word = head.call([first, length, lent(&mut places), lent(&mut half)]);
            note(2, word, words::head_word(reference::decay_head(text.as_bytes()).map(drop)));
            for (k, at) in [(0, 1), (1, 0), (1, 1), (1, 2), (2, 1), (7, 1)] {
                let [k64, at64] = [u64::from(k), u64::from(at)];
                let word = group.call([first, length, k64, lent(&mut numbers), lent(&mut value)]);
                note(3, word, reference::decay_group(text.as_bytes(), k).is_some().into());
                let word = kind.call([first, length, k64, at64, lent(&mut place)]);
                note(4, word, reference::decay_type(text.as_bytes(), k, at).is_some().into());
                let word = energy.call([first, length, k64, at64, lent(&mut place), lent(&mut value)]);
                note(5, word, reference::decay_energy(text.as_bytes(), k, at).is_some().into());
            }
        }
        let due: [&[u64]; 6] =
            [&[0, 31, 32, 33, 36, 50, 51, 52], &[0, 36, 50, 51, 52], &[0, 50], &[0, 1], &[0, 1], &[0, 1]];
        for (said, due) in said.iter().zip(due) {
            assert_eq!(said.iter().copied().collect::<Vec<_>>(), due);
        }
        [full, in_hand, head, group, kind, energy].iter().for_each(Measured::say);
    }

    /// Both calls about a held entry and a revision, of generated pairs and those at the limits. Each answer is the reference's.
    #[test]
    fn revisions_are_measured() {
        let mut part = Measured::new("x4_subentry", x4_subentry);
        let mut whole = Measured::new("x4_merge", x4_merge);
        let (mut place, mut length) = ([0u64; 3], [0u64; 1]);
        let mut said = [BTreeSet::new(), BTreeSet::new()];
        let generated = (0..300).map(|seed| generate::revised(&mut Random::seeded(seed)));
        for generate::Revised { held, revision } in generate::revised_limits().into_iter().take(3).chain(generated) {
            let ([one, first], [two, second]) = (bytes(&held), bytes(&revision));
            for n in [0, 1, 2, 3, 999] {
                let due = reference::subentry(&held, &revision, n).map(drop);
                let word = part.call([one, first, two, second, n.into(), lent(&mut place)]);
                assert_eq!(word, words::revision_word(due));
                said[0].insert(word & 0xff);
            }
            for room in [held.len() + revision.len(), 80] {
                let mut out = vec![b'#'; room];
                let due = reference::merge(&held, &revision, &mut out.clone()).map(drop);
                let word = whole.call([one, first, two, second, lent(&mut out), room as u64, lent(&mut length)]);
                assert_eq!(word, words::revision_word(due));
                said[1].insert(word & 0xff);
            }
        }
        assert_eq!(said, [[0, 32, 60, 61, 62].into(), [0, 37, 60, 61, 63].into()]);
        [part, whole].iter().for_each(Measured::say);
    }

    /// What stands in the place of a double before, which none of these values is.
    const MARK: f64 = -1.2345e99;

    /// The double that was stored, 0.0 for none, which is so exactly where the word has another kind than 1.
    fn stored(place: [f64; 1], word: u64) -> f64 {
        assert_eq!(place[0] != MARK, word >> 48 & 0xff == 1, "{word:x}");
        if place[0] != MARK {
            place[0]
        } else {
            0.0
        }
    }

    /// The number and the kind of an answer, after a look at what was returned.
    fn returned(double: f64, word: u64, due: Result<FieldRead, NoAnswer>) -> (u64, u64) {
        let (number, kind, digits) = (word & 0xff, word >> 48 & 0xff, word >> 56);
        let (mut decimal, mut told) = (None, (0, 0, 0));
        match due {
            Err(no) => told.0 = u64::from(no.number),
            Ok(FieldRead { value: Value::Blank, .. }) => {}
            Ok(FieldRead { value: Value::Number(d), digits }) => {
                let simple = d.coefficient <= 9_999_999_999 && (-22..=22).contains(&d.power);
                decimal = simple.then_some(d);
                told = (0, if simple { 1 } else { 2 }, digits.into());
            }
        }
        assert_eq!((number, kind, digits), told, "{due:?}");
        let nearest = decimal.map_or(0.0, |Decimal { negative, coefficient, power }| {
            let sign = if negative && coefficient != 0 { "-" } else { "" };
            format!("{sign}{coefficient}e{power}").parse().expect("a number")
        });
        assert_eq!(double.to_bits(), f64::to_bits(nearest), "{due:?}");
        (number, kind)
    }

    #[test]
    fn judging_questions_and_copies_are_measured() {
        let mut judge = Measured::new("x4_judge", x4_judge);
        let mut value = Measured::new("x4_value", x4_value);
        let mut heading = Measured::new("x4_heading", x4_heading);
        let mut unit = Measured::new("x4_unit", x4_unit);
        let mut passage = Measured::new("x4_passage", x4_passage);
        let mut copy = Measured::new("x4_copy", x4_copy);
        let (mut totals, mut number, mut part) = ([0u64; 4], [0u64; 8], [0u64; 3]);
        // how often each was answered, and refused
        let mut said = [[0; 2]; 6];
        let mut note = |call: usize, answer: u64| said[call][usize::from(answer != 0)] += 1;
        for entry in entries() {
            let [first, length] = bytes(&entry);
            note(0, judge.call([first, length, lent(&mut totals)]));
            for (n, section) in [(1, 1), (2, 1), (2, 2), (3, 2), (2, 3)] {
                for column in [1, 2, 18] {
                    let answer = value.call([first, length, n, section, 1, column, lent(&mut number)]);
                    note(1, answer);
                    note(2, heading.call([first, length, n, section, column, lent(&mut part)]));
                    note(3, unit.call([first, length, n, section, column, lent(&mut part)]));
                }
            }
            for (n, keyword, pointer) in [(1, "TITLE     ", b' '), (2, "REACTION  ", b'1'), (2, "REACTION  ", b' ')] {
                let [place, ten] = bytes(keyword.as_bytes());
                note(4, passage.call([first, length, n, place, ten, pointer.into(), lent(&mut part)]));
            }
            for room in [entry.len(), 80] {
                let mut buffer = vec![b'#'; room];
                note(5, copy.call([first, length, lent(&mut buffer), room as u64]));
            }
        }
        assert!(said.iter().flatten().all(|&times| times > 0), "{said:?}");
        [judge, value, heading, unit, passage, copy].iter().for_each(Measured::say);
    }
}
