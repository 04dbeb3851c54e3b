//! 01 word by word: obvious rather than fast.
//!
//! Each function stands for one sentence or table of 01, which its comment
//! quotes. Formulas are trees and are compared by their spelling.

use crate::Report;
use std::rc::Rc;

const MOST_BYTES: usize = 32_768;
const MOST_NODES: usize = 1_024;
const MOST_DEPTH: usize = 4;
const MOST_LISTED: usize = 4_096;
const RECORD_BYTES: usize = 9;
const MARK: [u8; 2] = [0x4C, 0x51];
const NO_PREMISE: usize = 0xFFFF;

/// A code about the file and its place.
type Fault = (usize, usize);

// ---------------------------------------------------------------------------
// The policy file
// ---------------------------------------------------------------------------

/// "A line is `H` (hypothesis) or `Q` (query), one space, one formula."
#[derive(Clone, Copy, PartialEq, Eq)]
enum Letter {
    Hypothesis,
    Query,
}

/// A well-formed line, its formula still a row of tokens.
struct Line<'f> {
    start: usize,
    letter: Letter,
    tokens: Vec<&'f [u8]>,
}

#[derive(Clone, Copy, PartialEq, Eq)]
enum Kind {
    Said,
    Put,
}

#[derive(Clone, PartialEq, Eq)]
struct Quotation {
    kind: Kind,
    principal: String,
}

/// A row of quotations, outermost first.
type Prefix = Vec<Quotation>;

/// A formula as a tree. One is only built when the whole file has at most
/// 1,024 nodes, so recursion over it (dropping it, too) is shallow.
enum Formula {
    True,
    Name(String),
    And(Rc<Formula>, Rc<Formula>),
    Implies(Rc<Formula>, Rc<Formula>),
    Quoted(Quotation, Rc<Formula>),
}

/// "Zero or more lines, each ended by one line feed." A rest without its line
/// feed is a line too, though not a well-formed one. Each comes with its start.
fn lines(file: &[u8]) -> Vec<(usize, &[u8])> {
    let mut start = 0;
    let mut lines = Vec::new();
    for line in file.split_inclusive(|byte| *byte == b'\n') {
        lines.push((start, line));
        start += line.len();
    }
    lines
}

/// "A name, also a principal's, is 1 to 16 characters out of a to z, 0 to 9
/// and hyphen."
fn is_name(token: &[u8]) -> bool {
    (1..=16).contains(&token.len())
        && token
            .iter()
            .all(|byte| matches!(byte, b'a'..=b'z' | b'0'..=b'9' | b'-'))
}

/// "Formulas are written operator first": counts the formulas still wanted,
/// so that no nesting, however deep, needs a stack.
fn is_one_formula(tokens: &[&[u8]]) -> bool {
    let mut wanted = 1;
    let mut tokens = tokens.iter();
    while let Some(token) = tokens.next() {
        if wanted == 0 {
            return false;
        }
        match *token {
            b"+" | b">" => wanted += 1,
            b"S" | b"P" => {
                if !tokens.next().is_some_and(|principal| is_name(principal)) {
                    return false;
                }
            }
            b"T" => wanted -= 1,
            name if is_name(name) => wanted -= 1,
            _ => return false,
        }
    }
    wanted == 0
}

/// "Tokens are separated by exactly one space, with none before the line
/// feed." A space too many leaves an empty token, which is no name.
fn well_formed(start: usize, line: &[u8]) -> Option<Line<'_>> {
    let text = line.strip_suffix(b"\n")?;
    let (letter, formula) = match text {
        [b'H', b' ', formula @ ..] => (Letter::Hypothesis, formula),
        [b'Q', b' ', formula @ ..] => (Letter::Query, formula),
        _ => return None,
    };
    let tokens: Vec<&[u8]> = formula.split(|byte| *byte == b' ').collect();
    is_one_formula(&tokens).then_some(Line {
        start,
        letter,
        tokens,
    })
}

/// "Each `T`, name used as a formula, `+`, `>`, `S` with its principal and `P`
/// with its principal is one node": every token but the principals.
fn nodes(line: &Line) -> usize {
    let is_quotation = |token: &&&[u8]| matches!(**token, b"S" | b"P");
    line.tokens.len() - line.tokens.iter().filter(is_quotation).count()
}

/// The tree of the next formula in a well-formed row of tokens.
fn tree<'t, 'f: 't>(tokens: &mut impl Iterator<Item = &'t &'f [u8]>) -> Rc<Formula> {
    let token = *tokens.next().expect("the line is well formed");
    Rc::new(match token {
        b"T" => Formula::True,
        b"+" => Formula::And(tree(tokens), tree(tokens)),
        b">" => Formula::Implies(tree(tokens), tree(tokens)),
        b"S" => Formula::Quoted(quotation(Kind::Said, tokens), tree(tokens)),
        b"P" => Formula::Quoted(quotation(Kind::Put, tokens), tree(tokens)),
        name => Formula::Name(text(name)),
    })
}

fn quotation<'t, 'f: 't>(kind: Kind, tokens: &mut impl Iterator<Item = &'t &'f [u8]>) -> Quotation {
    let principal = text(tokens.next().expect("the line is well formed"));
    Quotation { kind, principal }
}

fn text(name: &[u8]) -> String {
    name.iter().map(|byte| char::from(*byte)).collect()
}

/// "Depth of a node: the number of `S` and `P` nodes above it. We take a
/// formula's quotation depth to be the greatest depth of its nodes."
fn quotation_depth(formula: &Formula) -> usize {
    match formula {
        Formula::True | Formula::Name(_) => 0,
        Formula::And(x, y) | Formula::Implies(x, y) => quotation_depth(x).max(quotation_depth(y)),
        Formula::Quoted(_, x) => 1 + quotation_depth(x),
    }
}

/// A formula's spelling; "two formulas are equal exactly when they are spelled
/// alike".
fn spelling(prefix: &[Quotation], formula: &Formula) -> String {
    let mut words = Vec::new();
    for quotation in prefix {
        spell_quotation(quotation, &mut words);
    }
    spell(formula, &mut words);
    words.join(" ")
}

fn spell<'f>(formula: &'f Formula, words: &mut Vec<&'f str>) {
    match formula {
        Formula::True => words.push("T"),
        Formula::Name(name) => words.push(name),
        Formula::And(x, y) => {
            words.push("+");
            spell(x, words);
            spell(y, words);
        }
        Formula::Implies(x, y) => {
            words.push(">");
            spell(x, words);
            spell(y, words);
        }
        Formula::Quoted(quotation, x) => {
            spell_quotation(quotation, words);
            spell(x, words);
        }
    }
}

fn spell_quotation<'f>(quotation: &'f Quotation, words: &mut Vec<&'f str>) {
    words.push(match quotation.kind {
        Kind::Said => "S",
        Kind::Put => "P",
    });
    words.push(&quotation.principal);
}

// ---------------------------------------------------------------------------
// The list of formulas that matter
// ---------------------------------------------------------------------------

/// A formula on the list: a base under its whole outermost row of quotations.
struct Listed {
    prefix: Prefix,
    base: Rc<Formula>,
    base_spelling: String,
    spelling: String,
    /// For a base `x + y` or `x > y`: the numbers of pref x and pref y.
    parts: Option<(usize, usize)>,
}

/// "A base is a node that is not a quotation. Its prefix is the row of
/// quotations above it, outermost first, passing over `+` and `>`." In order
/// of first byte.
fn bases(formula: &Rc<Formula>, above: &[Quotation], found: &mut Vec<(Prefix, Rc<Formula>)>) {
    if let Formula::Quoted(quotation, x) = &**formula {
        let mut prefix = above.to_vec();
        prefix.push(quotation.clone());
        return bases(x, &prefix, found);
    }
    found.push((above.to_vec(), formula.clone()));
    if let Formula::And(x, y) | Formula::Implies(x, y) = &**formula {
        bases(x, above, found);
        bases(y, above, found);
    }
}

/// "A weaker prefix has the same principals and `put` at some places where the
/// other has `said`; each prefix also counts as weaker than itself." In order:
/// "`said` before `put`, the outermost place weighing most".
fn weaker_prefixes(prefix: &[Quotation]) -> Vec<Prefix> {
    let Some((outermost, inner)) = prefix.split_first() else {
        return vec![Vec::new()];
    };
    let kinds: &[Kind] = match outermost.kind {
        Kind::Said => &[Kind::Said, Kind::Put],
        Kind::Put => &[Kind::Put],
    };
    let mut weaker = Vec::new();
    for kind in kinds {
        for rest in weaker_prefixes(inner) {
            let mut row = vec![Quotation {
                kind: *kind,
                principal: outermost.principal.clone(),
            }];
            row.extend(rest);
            weaker.push(row);
        }
    }
    weaker
}

/// "For each [base], list every weaker prefix followed by the base. Skip what
/// has been listed already."
fn list_base(list: &mut Vec<Listed>, prefix: &[Quotation], base: &Rc<Formula>) {
    let base_spelling = spelling(&[], base);
    for prefix in weaker_prefixes(prefix) {
        let spelling = spelling(&prefix, base);
        if number(list, &spelling).is_none() {
            list.push(Listed {
                prefix,
                base: base.clone(),
                base_spelling: base_spelling.clone(),
                spelling,
                parts: None,
            });
        }
    }
}

/// A formula's number on the list.
fn number(list: &[Listed], spelling: &str) -> Option<usize> {
    list.iter().position(|listed| listed.spelling == spelling)
}

/// Notes the numbers of pref x and pref y beside each pref (x + y) and
/// pref (x > y).
fn note_parts(list: &mut [Listed]) {
    for at in 0..list.len() {
        let listed = &list[at];
        if let Formula::And(x, y) | Formula::Implies(x, y) = &*listed.base {
            let part = |formula| {
                number(list, &spelling(&listed.prefix, formula)).expect("a part is listed")
            };
            list[at].parts = Some((part(x), part(y)));
        }
    }
}

// ---------------------------------------------------------------------------
// Eight ways to a record
// ---------------------------------------------------------------------------

/// A record's content. The order is that of "the least formula number, then
/// the least rule, first premise and second premise".
#[derive(Clone, Copy, Debug, PartialEq, Eq, PartialOrd, Ord)]
pub struct Record {
    pub formula: usize,
    pub rule: u8,
    pub first: Option<usize>,
    pub second: Option<usize>,
}

impl Record {
    /// "Nine bytes a record, high byte first: the mark 4C 51, the rule (one
    /// byte), the formula's number, first premise, second premise (two bytes
    /// each). FF FF stands for no premise." Nothing, if the mark is wrong.
    pub fn from_bytes(bytes: &[u8]) -> Option<Record> {
        let number = |at: usize| 256 * usize::from(bytes[at]) + usize::from(bytes[at + 1]);
        let premise = |at: usize| Some(number(at)).filter(|number| *number != NO_PREMISE);
        (bytes[..2] == MARK).then(|| Record {
            formula: number(3),
            rule: bytes[2],
            first: premise(5),
            second: premise(7),
        })
    }

    pub fn to_bytes(&self) -> [u8; RECORD_BYTES] {
        let mut bytes = [MARK[0], MARK[1], self.rule, 0, 0, 0, 0, 0, 0];
        let numbers = [
            self.formula,
            self.first.unwrap_or(NO_PREMISE),
            self.second.unwrap_or(NO_PREMISE),
        ];
        for (place, number) in numbers.iter().enumerate() {
            bytes[3 + 2 * place] = (number / 256) as u8;
            bytes[4 + 2 * place] = (number % 256) as u8;
        }
        bytes
    }
}

/// An accepted file: the list, the hypotheses and queries by their numbers,
/// and every record that the table of eight ways has over the list, in order.
pub struct Policy {
    list: Vec<Listed>,
    hypotheses: Vec<usize>,
    queries: Vec<usize>,
    ways: Vec<Record>,
}

impl Policy {
    /// "A file is accepted when none of the codes about the file alone, here
    /// 1 to 5, applies." They are tried in this order.
    pub fn read(file: &[u8]) -> Result<Policy, Fault> {
        if file.len() > MOST_BYTES {
            return Err((1, 0));
        }
        let lines = all_well_formed(file)?;
        few_enough_nodes(&lines)?;
        let formulas = trees(&lines);
        shallow_enough(&formulas)?;
        let list = short_enough_list(&formulas)?;
        Ok(Policy::with_list(list, &lines, &formulas))
    }

    fn with_list(list: Vec<Listed>, lines: &[Line], formulas: &[(usize, Rc<Formula>)]) -> Policy {
        let numbers_of = |letter| {
            let with_letter = lines
                .iter()
                .zip(formulas)
                .filter(|(l, _)| l.letter == letter);
            with_letter
                .map(|(_, (_, formula))| number(&list, &spelling(&[], formula)))
                .map(|number| number.expect("a line's formula is listed"))
                .collect()
        };
        let mut policy = Policy {
            hypotheses: numbers_of(Letter::Hypothesis),
            queries: numbers_of(Letter::Query),
            list,
            ways: Vec::new(),
        };
        policy.ways = policy.all_ways();
        policy
    }

    /// "L is their count."
    pub fn listed(&self) -> usize {
        self.list.len()
    }

    /// The listed formulas as they are spelled, in the order of their numbers.
    pub fn spellings(&self) -> impl Iterator<Item = &str> {
        self.list.iter().map(|listed| listed.spelling.as_str())
    }

    /// The number of queries.
    pub fn queries(&self) -> usize {
        self.queries.len()
    }

    /// The number on the list of the query with this count. "Queries count
    /// from 1" (02, M-100); other counts are outside the file.
    pub fn query(&self, count: usize) -> Option<usize> {
        self.queries.get(count.checked_sub(1)?).copied()
    }

    /// The table of eight ways.
    fn gives(&self, record: &Record) -> bool {
        let formula = record.formula;
        match (record.rule, record.first, record.second) {
            (1, None, None) => self.hypotheses.contains(&formula),
            (2, None, None) => matches!(*self.list[formula].base, Formula::True),
            (3, Some(first), None) => self.is_weaker(formula, first),
            (4, Some(first), None) => self.and(first).is_some_and(|(x, _)| x == formula),
            (5, Some(first), None) => self.and(first).is_some_and(|(_, y)| y == formula),
            (6, Some(first), Some(second)) => self.and(formula) == Some((first, second)),
            (7, Some(first), Some(second)) => self.implies(second) == Some((first, formula)),
            (8, Some(first), None) => self.implies(formula).is_some_and(|(_, y)| y == first),
            _ => false,
        }
    }

    /// For pref (x + y): the numbers of pref x and pref y.
    fn and(&self, number: usize) -> Option<(usize, usize)> {
        let listed = &self.list[number];
        listed
            .parts
            .filter(|_| matches!(*listed.base, Formula::And(..)))
    }

    /// For pref (x > y): the numbers of pref x and pref y.
    fn implies(&self, number: usize) -> Option<(usize, usize)> {
        let listed = &self.list[number];
        listed
            .parts
            .filter(|_| matches!(*listed.base, Formula::Implies(..)))
    }

    /// Whether one formula is a weaker prefix of the other's, and then the
    /// same base: rule 3.
    fn is_weaker(&self, weaker: usize, stronger: usize) -> bool {
        let (weaker, stronger) = (&self.list[weaker], &self.list[stronger]);
        let place_is_weaker = |(w, s): (&Quotation, &Quotation)| {
            w.principal == s.principal && (w.kind == Kind::Put || s.kind == Kind::Said)
        };
        weaker.prefix.len() == stronger.prefix.len()
            && weaker
                .prefix
                .iter()
                .zip(&stronger.prefix)
                .all(place_is_weaker)
            && weaker.base_spelling == stronger.base_spelling
    }

    /// Every record that the table has over the list, in order.
    fn all_ways(&self) -> Vec<Record> {
        let mut ways = Vec::new();
        for formula in 0..self.list.len() {
            for rule in 1..=8 {
                let tried = self.premises_to_try(formula, rule).into_iter();
                let records = tried.map(|(first, second)| Record {
                    formula,
                    rule,
                    first,
                    second,
                });
                ways.extend(records.filter(|record| self.gives(record)));
            }
        }
        ways.sort();
        ways
    }

    /// The premises worth trying: those of the right number; for rule 6 only
    /// the formula's own parts, for rule 7 only implications with their parts.
    fn premises_to_try(&self, formula: usize, rule: u8) -> Vec<(Option<usize>, Option<usize>)> {
        let all = 0..self.list.len();
        match rule {
            1 | 2 => vec![(None, None)],
            6 => {
                let parts = self.and(formula);
                parts.iter().map(|(x, y)| (Some(*x), Some(*y))).collect()
            }
            7 => all
                .filter_map(|second| Some((Some(self.implies(second)?.0), Some(second))))
                .collect(),
            _ => all.map(|first| (Some(first), None)).collect(),
        }
    }

    // -----------------------------------------------------------------------
    // The journal
    // -----------------------------------------------------------------------

    /// "A record is good after given records if its mark is right, its rule is
    /// 1 to 8, its formula's number is below L and not recorded before, each
    /// premise that the rule has is recorded earlier, each that it lacks is
    /// FF FF, and the rule gives that formula from them." The mark has been
    /// looked at; the table knows rules 1 to 8 and their premises only.
    fn is_good(&self, record: &Record, recorded: &[bool]) -> bool {
        let is_recorded = |number: &usize| recorded.get(*number) == Some(&true);
        record.formula < self.list.len()
            && !is_recorded(&record.formula)
            && [record.first, record.second]
                .iter()
                .flatten()
                .all(is_recorded)
            && self.gives(record)
    }

    /// "The kept part is the longest row of whole nine-byte records at the
    /// journal's start, inside the used length, each good after those before
    /// it."
    pub fn kept_part(&self, journal: &[u8]) -> Vec<Record> {
        let mut kept = Vec::new();
        let mut recorded = self.recorded(&kept);
        for bytes in journal.chunks_exact(RECORD_BYTES) {
            match Record::from_bytes(bytes) {
                Some(record) if self.is_good(&record, &recorded) => {
                    recorded[record.formula] = true;
                    kept.push(record);
                }
                _ => break,
            }
        }
        kept
    }

    /// For each number on the list, whether one of the records is for it.
    fn recorded(&self, records: &[Record]) -> Vec<bool> {
        let mut recorded = vec![false; self.list.len()];
        for record in records {
            recorded[record.formula] = true;
        }
        recorded
    }

    /// All good records, in order.
    pub fn good_records<'a>(
        &'a self,
        recorded: &'a [bool],
    ) -> impl Iterator<Item = &'a Record> + 'a {
        self.ways
            .iter()
            .filter(|record| self.is_good(record, recorded))
    }

    /// "The next record, if any: among all good records choose the least
    /// formula number, then the least rule, first premise and second premise."
    fn next_record(&self, recorded: &[bool]) -> Option<Record> {
        self.good_records(recorded).next().copied()
    }

    /// Each the next one, until there is none. They are as many as the missing
    /// formulas: "the number of derivable formulas on the list that the kept
    /// part does not record".
    fn records_to_come(&self, kept: &[Record]) -> Vec<Record> {
        let mut recorded = self.recorded(kept);
        let mut to_come = Vec::new();
        while let Some(record) = self.next_record(&recorded) {
            recorded[record.formula] = true;
            to_come.push(record);
        }
        to_come
    }

    /// "Yes: recorded. No: not recorded and the journal finished. Open: not
    /// recorded and not finished."
    fn answer(&self, query: usize, recorded: &[bool], finished: bool) -> u8 {
        match (recorded[query], finished) {
            (true, _) => 1,
            (false, true) => 0,
            (false, false) => 2,
        }
    }
}

// ---------------------------------------------------------------------------
// Codes on the board
// ---------------------------------------------------------------------------

/// Code 2: "a line is not well formed", "start of the first such line".
fn all_well_formed(file: &[u8]) -> Result<Vec<Line<'_>>, Fault> {
    let lines = lines(file).into_iter();
    lines
        .map(|(start, line)| well_formed(start, line).ok_or((2, start)))
        .collect()
}

/// Code 3: "over 1,024 nodes in the file", "start of the line with node
/// 1,025".
fn few_enough_nodes(lines: &[Line]) -> Result<(), Fault> {
    let mut count = 0;
    for line in lines {
        count += nodes(line);
        if count > MOST_NODES {
            return Err((3, line.start));
        }
    }
    Ok(())
}

/// The lines' formulas, each with the start of its line.
fn trees(lines: &[Line]) -> Vec<(usize, Rc<Formula>)> {
    let lines = lines.iter();
    lines
        .map(|line| (line.start, tree(&mut line.tokens.iter())))
        .collect()
}

/// Code 4: "a formula's quotation depth is over 4", "start of the first such
/// line".
fn shallow_enough(formulas: &[(usize, Rc<Formula>)]) -> Result<(), Fault> {
    let mut formulas = formulas.iter();
    match formulas.find(|(_, formula)| quotation_depth(formula) > MOST_DEPTH) {
        Some((start, _)) => Err((4, *start)),
        None => Ok(()),
    }
}

/// "Take all bases in order of their first byte in the file." Code 5: "L is
/// over 4,096", "start of the line whose base first needs number 4,096".
fn short_enough_list(formulas: &[(usize, Rc<Formula>)]) -> Result<Vec<Listed>, Fault> {
    let mut list = Vec::new();
    for (start, formula) in formulas {
        let mut found = Vec::new();
        bases(formula, &[], &mut found);
        for (prefix, base) in found {
            list_base(&mut list, &prefix, &base);
            if list.len() > MOST_LISTED {
                return Err((5, *start));
            }
        }
    }
    note_parts(&mut list);
    Ok(list)
}

/// Codes 6, 7 and 8, in this order.
fn fault_of_buffers(policy: &Policy, journal: usize, used: usize, answers: usize) -> Option<usize> {
    if journal < RECORD_BYTES * policy.listed() {
        Some(6)
    } else if used > journal {
        Some(7)
    } else if answers < policy.queries() {
        Some(8)
    } else {
        None
    }
}

/// Writes what was added "right after the kept part"; the kept records stay as
/// they are.
fn write_added(journal: &mut [u8], records: &[Record], kept: usize) {
    let places = journal.chunks_exact_mut(RECORD_BYTES);
    for (bytes, record) in places.zip(records).skip(kept) {
        bytes.copy_from_slice(&record.to_bytes());
    }
}

/// Writes one answer for each query, in the file's order.
fn write_answers(answers: &mut [u8], policy: &Policy, recorded: &[bool], finished: bool) {
    for (byte, query) in answers.iter_mut().zip(&policy.queries) {
        *byte = policy.answer(*query, recorded, finished);
    }
}

/// "A run takes the file, the journal buffer, its used length, a limit n and
/// the answer buffer."
pub fn run(
    file: &[u8],
    journal: &mut [u8],
    used: usize,
    limit: usize,
    answers: &mut [u8],
) -> Report {
    match Policy::read(file) {
        Ok(policy) => policy.run(journal, used, limit, answers),
        Err((code, place)) => Report::refusal(code, place, used),
    }
}

impl Policy {
    /// A run with this file, which is accepted. It "adds the smaller of n and
    /// missing, each the next one, right after the kept part".
    pub fn run(&self, journal: &mut [u8], used: usize, limit: usize, answers: &mut [u8]) -> Report {
        if let Some(code) = fault_of_buffers(self, journal.len(), used, answers.len()) {
            return Report::refusal(code, 0, used);
        }
        let mut records = self.kept_part(&journal[..used]);
        let kept = records.len();
        let to_come = self.records_to_come(&records);
        let added = limit.min(to_come.len());
        records.extend_from_slice(&to_come[..added]);
        let new_used = RECORD_BYTES * records.len();
        if new_used > journal.len() {
            return Report::refusal(9, 0, used);
        }

        let recorded = self.recorded(&records);
        let finished = self.next_record(&recorded).is_none();
        write_added(journal, &records, kept);
        write_answers(answers, self, &recorded, finished);
        Report {
            code: 0,
            place: 0,
            kept,
            added,
            finished,
            used: new_used,
        }
    }
}

#[cfg(test)]
mod tests {
    use super::*;

    /// Every record there could be over the list, tried one by one.
    fn all_ways_at_length(policy: &Policy) -> Vec<Record> {
        let numbers = || (0..policy.listed()).map(Some).chain([None]);
        let mut ways = Vec::new();
        for formula in 0..policy.listed() {
            for rule in 0..=9 {
                for first in numbers() {
                    ways.extend(numbers().map(|second| Record {
                        formula,
                        rule,
                        first,
                        second,
                    }));
                }
            }
        }
        ways.retain(|record| policy.gives(record));
        ways.sort();
        ways
    }

    #[test]
    fn no_way_is_left_out() {
        for file in [
            "H > S bank paid paid\nH S bank paid\nQ S bank lien\n",
            "H + b b\nQ > + b b T\nQ S a > b S a b\n",
            "H S a S b + c > c c\nH S a > S b c P b c\n",
        ] {
            let policy = Policy::read(file.as_bytes()).expect("accepted");
            assert!(!policy.ways.is_empty());
            assert_eq!(policy.ways, all_ways_at_length(&policy));
        }
    }

    #[test]
    fn a_record_is_its_nine_bytes() {
        let bytes = [0x4C, 0x51, 7, 0x01, 0x02, 0x0F, 0xFE, 0xFF, 0xFE];
        let record = Record::from_bytes(&bytes).expect("the mark is right");
        let expected = Record {
            formula: 0x0102,
            rule: 7,
            first: Some(0x0FFE),
            second: Some(0xFFFE),
        };
        assert_eq!(record, expected);
        assert_eq!(record.to_bytes(), bytes);
        assert_eq!(Record::from_bytes(&[0x4C, 0x50, 1, 0, 0, 0, 0, 0, 0]), None);
    }

    #[test]
    fn weaker_prefixes_come_in_order() {
        let policy = Policy::read(b"Q S a P b S c d\n").expect("accepted");
        let expected = [
            "S a P b S c d",
            "S a P b P c d",
            "P a P b S c d",
            "P a P b P c d",
        ];
        assert!(policy.spellings().eq(expected));
    }
}
