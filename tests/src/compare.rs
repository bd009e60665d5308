//! A call of the static library and the same call of the second implementation: number, out values
//! and every lent byte must agree.
use crate::calls::{self, Told};
use crate::fence::Fence;
use crate::reference::calls::{self as reference, Offered, Written};
use crate::reference::script;
use label_book::{Panel, Range};
use std::collections::BTreeMap;

/// How many cases agreed, by the number returned.
type ByNumber = BTreeMap<u8, u64>;

/// The cases of each call that agreed, and the answers that runs kept, which agreed with them.
pub struct Compare {
    agreed: BTreeMap<&'static str, ByNumber>,
    kept: ByNumber,
    sources: [Fence; 2],
    destinations: [Fence; 3],
}

/// Room for every image, and for scripts of tens of thousands of calls and their answers.
const PAGES: usize = 1024;

impl Default for Compare {
    fn default() -> Compare {
        let new = |_| Fence::new(PAGES);
        Compare {
            agreed: BTreeMap::new(),
            kept: ByNumber::new(),
            sources: [0, 1].map(new),
            destinations: [0, 1, 2].map(new),
        }
    }
}

fn hex(bytes: &[u8]) -> String {
    bytes.iter().map(|b| format!("{b:02X}")).collect::<Vec<_>>().join(" ")
}

pub fn told_written(answer: Written) -> Told {
    match answer {
        Ok((entries, bytes)) => (0, [entries as u64, bytes as u64, 0]),
        Err(number) => (number, [0; 3]),
    }
}

fn told_offered(answer: Offered) -> Told {
    match answer {
        Ok((offered, bytes, looks)) => (0, [offered as u64, bytes as u64, looks as u64]),
        Err(number) => (number, [0; 3]),
    }
}

fn told_found(answer: Result<Option<(usize, u32)>, u8>) -> Told {
    match answer {
        Ok(Some((position, score))) => (0, [1, position as u64, score as u64]),
        Ok(None) => (0, [0; 3]),
        Err(number) => (number, [0; 3]),
    }
}

/// Counts one case, or reports the difference and ends.
fn count(
    agreed: &mut BTreeMap<&'static str, ByNumber>,
    call: &'static str,
    agrees: bool,
    number: u8,
    difference: impl FnOnce() -> String,
) {
    if !agrees {
        panic!("{call}: a difference\n{}", difference());
    }
    *agreed.entry(call).or_default().entry(number).or_default() += 1;
}

impl Compare {
    /// A call on sources and destinations, each lent with its end at a fence. `ours` is given them,
    /// `other` the destinations.
    fn lends<const N: usize>(
        &mut self,
        call: &'static str,
        sources: [&[u8]; 2],
        numbers: &[usize],
        dsts: [&[u8]; N],
        ours: impl FnOnce([&[u8]; 2], [&mut [u8]; N]) -> Told,
        other: impl FnOnce([&mut [u8]; N]) -> Told,
    ) -> (Told, [Vec<u8>; N]) {
        let [first, second] = &mut self.sources;
        let mut fences = self.destinations.iter_mut();
        let lent = dsts.map(|dst| fences.next().unwrap().lend(dst));
        let told = ours([first.lend(sources[0]), second.lend(sources[1])], lent);
        let mut wanted = dsts.map(<[u8]>::to_vec);
        let expected = other(wanted.each_mut().map(Vec::as_mut_slice));
        let mut fences = self.destinations.iter();
        let left = dsts.map(|dst| fences.next().unwrap().lent(dst.len()));
        let agrees = told == expected
            && left == wanted.each_ref().map(Vec::as_slice)
            && dsts.iter().zip(&self.destinations).all(|(dst, fence)| fence.front_holds(dst.len()))
            && [(&*first, sources[0]), (&*second, sources[1])]
                .iter()
                .all(|(fence, source)| fence.holds(source));
        let difference = || {
            let [a, b] = sources.map(hex);
            let lines = (0..N).map(|i| {
                let [lent, left, wanted] = [dsts[i], left[i], &wanted[i]].map(hex);
                format!("\ndestination {lent}\nours   {left}\nsecond {wanted}")
            });
            let lines: String = lines.collect();
            let told = format!("ours   {told:?}\nsecond {expected:?}");
            format!("sources\n{a}\n{b}\nnumbers {numbers:?}{lines}\n{told}")
        };
        count(&mut self.agreed, call, agrees, told.0, difference);
        (told, wanted)
    }

    /// A call that has one destination.
    fn writes(
        &mut self,
        call: &'static str,
        sources: [&[u8]; 2],
        numbers: &[usize],
        dst: &[u8],
        ours: impl FnOnce([&[u8]; 2], &mut [u8]) -> Told,
        other: impl FnOnce(&mut [u8]) -> Told,
    ) -> (Told, Vec<u8>) {
        let (told, [left]) = self.lends(
            call,
            sources,
            numbers,
            [dst],
            |sources, [d]| ours(sources, d),
            |[d]| other(d),
        );
        (told, left)
    }

    /// A call that has no destination.
    fn reads(
        &mut self,
        call: &'static str,
        sources: [&[u8]; 2],
        numbers: &[usize],
        ours: impl FnOnce([&[u8]; 2]) -> Told,
        other: Told,
    ) {
        self.lends(call, sources, numbers, [], |sources, []| ours(sources), |[]| other);
    }

    pub fn empty(&mut self, dst: &[u8]) -> (Told, Vec<u8>) {
        self.writes(
            "empty",
            [&[], &[]],
            &[],
            dst,
            |_, d| calls::empty(d),
            |d| told_written(reference::empty(d)),
        )
    }

    pub fn set(&mut self, book: &[u8], name: &[u8], score: u32, dst: &[u8]) -> (Told, Vec<u8>) {
        let ours = |[book, name]: [&[u8]; 2], d: &mut [u8]| calls::set(book, name, score, d);
        let other = |d: &mut [u8]| told_written(reference::set(book, name, score, d));
        self.writes("set", [book, name], &[score as usize], dst, ours, other)
    }

    pub fn withdraw(&mut self, book: &[u8], name: &[u8], dst: &[u8]) -> (Told, Vec<u8>) {
        let other = |d: &mut [u8]| told_written(reference::withdraw(book, name, d));
        self.writes(
            "withdraw",
            [book, name],
            &[],
            dst,
            |[book, name], d| calls::withdraw(book, name, d),
            other,
        )
    }

    pub fn merge(&mut self, first: &[u8], second: &[u8], dst: &[u8]) -> (Told, Vec<u8>) {
        let other = |d: &mut [u8]| told_written(reference::merge(first, second, d));
        self.writes(
            "merge",
            [first, second],
            &[],
            dst,
            |[first, second], d| calls::merge(first, second, d),
            other,
        )
    }

    pub fn name_at(&mut self, book: &[u8], position: usize, dst: &[u8]) {
        let other = |d: &mut [u8]| told_written(reference::name_at(book, position, d));
        self.writes(
            "name_at",
            [book, &[]],
            &[position],
            dst,
            |[book, _], d| calls::name_at(book, position, d),
            other,
        );
    }

    pub fn name_of(&mut self, book: &[u8], name: &[u8], dst: &[u8]) {
        let other = |d: &mut [u8]| told_written(reference::name_of(book, name, d));
        self.writes(
            "name_of",
            [book, name],
            &[],
            dst,
            |[book, name], d| calls::name_of(book, name, d),
            other,
        );
    }

    pub fn build(&mut self, sheet: &[u8], dst: &[u8]) -> (Told, Vec<u8>) {
        let other = |d: &mut [u8]| told_written(reference::build(sheet, d));
        self.writes("build", [sheet, &[]], &[], dst, |[sheet, _], d| calls::build(sheet, d), other)
    }

    pub fn list(&mut self, book: &[u8], dst: &[u8]) -> (Told, Vec<u8>) {
        let other = |d: &mut [u8]| told_written(reference::list(book, d));
        self.writes("list", [book, &[]], &[], dst, |[book, _], d| calls::list(book, d), other)
    }

    pub fn page(&mut self, book: &[u8], dst: &[u8]) -> (Told, Vec<u8>) {
        let other = |d: &mut [u8]| told_written(reference::page(book, d));
        self.writes("page", [book, &[]], &[], dst, |[book, _], d| calls::page(book, d), other)
    }

    pub fn convert(&mut self, book: &[u8], dst: &[u8]) -> (Told, Vec<u8>) {
        let other = |d: &mut [u8]| told_written(reference::convert(book, d));
        self.writes("convert", [book, &[]], &[], dst, |[book, _], d| calls::convert(book, d), other)
    }

    pub fn check(&mut self, book: &[u8]) {
        self.reads(
            "check",
            [book, &[]],
            &[],
            |[book, _]| calls::check(book),
            told_written(reference::check(book)),
        );
    }

    pub fn find(&mut self, book: &[u8], name: &[u8]) {
        let other = told_found(reference::find(book, name));
        self.reads("find", [book, name], &[], |[book, name]| calls::find(book, name), other);
    }

    pub fn prefix_range(&mut self, book: &[u8], prefix: &[u8]) {
        let other = told_written(reference::prefix_range(book, prefix));
        self.reads(
            "prefix_range",
            [book, prefix],
            &[],
            |[book, prefix]| calls::prefix_range(book, prefix),
            other,
        );
    }

    pub fn head(&mut self, book: &[u8], bucket: usize) {
        let other = told_written(reference::head(book, bucket));
        self.reads("head", [book, &[]], &[bucket], |[book, _]| calls::head(book, bucket), other);
    }

    /// A history's run: the first buffer, the second and the kept answers are lent.
    pub fn run(&mut self, script: &[u8], lent: [&[u8]; 3]) -> (Told, [Vec<u8>; 3]) {
        self.run_as(script, lent, |[first, second, out]| {
            told_written(script::run(script, first, second, out))
        })
    }

    /// The same, compared with a run that is given.
    pub fn run_as(
        &mut self,
        script: &[u8],
        lent: [&[u8]; 3],
        other: impl FnOnce([&mut [u8]; 3]) -> Told,
    ) -> (Told, [Vec<u8>; 3]) {
        let ours = |[script, _]: [&[u8]; 2], [first, second, out]: [&mut [u8]; 3]| {
            calls::run(script, first, second, out)
        };
        let (told, left) = self.lends("run", [script, &[]], &[], lent, ours, other);
        for answer in left[2].chunks(script::ANSWER).take(told.1[0] as usize) {
            *self.kept.entry(answer[0]).or_default() += 1;
        }
        (told, left)
    }

    /// Completion from a book; the lent ranges are free after an answer and unchanged after a
    /// refusal.
    pub fn complete(
        &mut self,
        book: &[u8],
        prefix: &[u8],
        k: usize,
        dst: &[u8],
        ranges: usize,
    ) -> (Told, Vec<u8>) {
        let before = Range { first: 77, best: usize::MAX, score: 0x5A5A_5A5A, last: 3 };
        let mut lent = vec![before; ranges + 2];
        let other = |d: &mut [u8]| told_offered(reference::complete(book, prefix, k, d, ranges));
        let ours = |[book, prefix]: [&[u8]; 2], d: &mut [u8]| {
            calls::complete(book, prefix, k, d, &mut lent[1..=ranges])
        };
        let answer = self.writes("complete", [book, prefix], &[k, ranges], dst, ours, other);
        let same = |range: &Range| *range == before;
        assert!(
            same(&lent[0]) && same(&lent[ranges + 1]),
            "complete: a range that was not lent changed"
        );
        assert!(answer.0 .0 == 0 || lent.iter().all(same), "complete: a refusal changed a range");
        answer
    }

    pub fn write_trie(&mut self, book: &[u8], dst: &[u8]) -> (Told, Vec<u8>) {
        let other = |d: &mut [u8]| told_written(reference::write_trie(book, d));
        self.writes(
            "write_trie",
            [book, &[]],
            &[],
            dst,
            |[book, _], d| calls::write_trie(book, d),
            other,
        )
    }

    pub fn complete_trie(
        &mut self,
        trie: &[u8],
        prefix: &[u8],
        k: usize,
        dst: &[u8],
    ) -> (Told, Vec<u8>) {
        let other = |d: &mut [u8]| told_offered(reference::complete_trie(trie, prefix, k, d));
        let ours =
            |[trie, prefix]: [&[u8]; 2], d: &mut [u8]| calls::complete_trie(trie, prefix, k, d);
        self.writes("complete_trie", [trie, prefix], &[k], dst, ours, other)
    }

    /// A key of the panel, which is then as the second implementation leaves it. It stands between
    /// two others, which stay as they are.
    pub fn press(&mut self, book: &[u8], panel: &mut Panel, key: u8) -> Told {
        let before = panel.clone();
        let answer = crate::reference::panel::press(book, panel, key);
        let beside = Panel { text: [0xA5; 48], len: 3, held: [0x5A; 48], ..Panel::default() };
        let mut lent = [beside.clone(), before.clone(), beside.clone()];
        let told = calls::press(self.sources[0].lend(book), &mut lent[1], key);
        let expected = match answer {
            Ok(rows) => (0, [rows as u64, 0, 0]),
            Err(number) => (number, [0; 3]),
        };
        let wanted = [beside.clone(), panel.clone(), beside];
        let agrees = told == expected && lent == wanted && self.sources[0].holds(book);
        count(&mut self.agreed, "press", agrees, told.0, || {
            let (ours, second) = (format!("{told:?} {lent:?}"), format!("{expected:?} {panel:?}"));
            format!(
                "book {}\npanel {before:?}\nkey {key:02X}\nours   {ours}\nsecond {second}",
                hex(book)
            )
        });
        assert!(answer.is_ok() || *panel == before);
        told
    }

    pub fn cases(&self) -> u64 {
        self.agreed.values().flat_map(|by_number| by_number.values()).sum()
    }

    /// A line for each call, and one for the calls within runs.
    pub fn report(&self) {
        let line = |call: &str, by_number: &ByNumber| {
            let all: u64 = by_number.values().sum();
            let answered = by_number.get(&0).copied().unwrap_or_default();
            let refused = by_number.iter().filter(|(number, _)| **number != 0);
            let refused: Vec<String> = refused.map(|(n, cases)| format!("{n}: {cases}")).collect();
            println!("{call:<14} {all:>9} {answered:>9}   {}", refused.join(", "));
        };
        println!("call               cases  answered   refused, by number: cases");
        self.agreed.iter().for_each(|(call, by_number)| line(call, by_number));
        line("calls in runs", &self.kept);
    }
}
