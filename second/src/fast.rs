//! The fast sibling of [`crate::slow`]: the same answers in nearly linear time.
//!
//! Nodes lie in one row in file order, formulas are shared by hashing, each
//! listed formula knows where it stands as a part, and the formulas with a good
//! record wait in a set of bits whose least member is found at once. The stages
//! [`read`], [`list`] and [`close`] are public so that they can be timed apart.

use crate::Report;
use std::collections::HashMap;
use std::hash::{BuildHasherDefault, Hasher};

const MOST_BYTES: usize = 32_768;
const MOST_NODES: usize = 1_024;
const MOST_DEPTH: usize = 4;
const MOST_LISTED: usize = 4_096;
const RECORD_BYTES: usize = 9;
const MARK: [u8; 2] = *b"LQ";
const NO_PREMISE: u16 = u16::MAX;

/// A code about the file and its place.
type Fault = (usize, usize);

// ---------------------------------------------------------------------------
// Hashing
// ---------------------------------------------------------------------------

/// A quick hash for the small whole numbers used as keys here.
#[derive(Default)]
struct Mix(u64);

impl Hasher for Mix {
    fn write(&mut self, bytes: &[u8]) {
        for byte in bytes {
            self.write_u64(u64::from(*byte));
        }
    }

    fn write_u64(&mut self, word: u64) {
        self.0 = (self.0.rotate_left(23) ^ word).wrapping_mul(0x9E37_79B9_7F4A_7C15);
    }

    fn write_u128(&mut self, word: u128) {
        self.write_u64(word as u64);
        self.write_u64((word >> 64) as u64);
    }

    fn finish(&self) -> u64 {
        self.0 ^ (self.0 >> 32)
    }
}

type Table<K> = HashMap<K, u32, BuildHasherDefault<Mix>>;

// ---------------------------------------------------------------------------
// Reading
// ---------------------------------------------------------------------------

#[derive(Clone, Copy, PartialEq, Eq)]
enum Operator {
    True,
    Name,
    And,
    Implies,
    Said,
    Put,
}

impl Operator {
    fn is_quotation(self) -> bool {
        matches!(self, Operator::Said | Operator::Put)
    }

    fn is_compound(self) -> bool {
        matches!(self, Operator::And | Operator::Implies)
    }
}

/// A node; in its row each operator stands right before its first operand.
#[derive(Clone, Copy)]
struct Node {
    operator: Operator,
    /// The name of a primitive formula or of a principal, up to sixteen
    /// characters packed into a number; 0 for the others.
    name: u128,
}

struct Line {
    start: usize,
    is_query: bool,
    /// The place of its formula's first node.
    root: usize,
}

/// A file that codes 1 to 4 let pass.
pub struct Parsed {
    nodes: Vec<Node>,
    lines: Vec<Line>,
}

/// A name packed into a number, or nothing if it is none.
fn pack_name(token: &[u8]) -> Option<u128> {
    if token.is_empty() || token.len() > 16 {
        return None;
    }
    token.iter().try_fold(0, |packed, byte| match byte {
        b'a'..=b'z' | b'0'..=b'9' | b'-' => Some(packed << 8 | u128::from(*byte)),
        _ => None,
    })
}

/// Reads one line's formula node by node.
struct LineReader<'f> {
    file: &'f [u8],
    at: usize,
    ended: bool,
}

impl<'f> LineReader<'f> {
    /// The next token, and past the one space or line feed behind it.
    fn token(&mut self) -> Option<&'f [u8]> {
        if self.ended {
            return None;
        }
        let rest = &self.file[self.at..];
        let length = rest.iter().position(|byte| matches!(byte, b' ' | b'\n'))?;
        self.ended = rest[length] == b'\n';
        self.at += length + 1;
        Some(&rest[..length])
    }

    fn node(&mut self) -> Option<Node> {
        let operator = match self.token()? {
            b"T" => Operator::True,
            b"+" => Operator::And,
            b">" => Operator::Implies,
            b"S" => Operator::Said,
            b"P" => Operator::Put,
            name => {
                return Some(Node {
                    operator: Operator::Name,
                    name: pack_name(name)?,
                })
            }
        };
        let name = match operator.is_quotation() {
            true => pack_name(self.token()?)?,
            false => 0,
        };
        Some(Node { operator, name })
    }

    /// Hands on every node of one whole formula with nothing behind it.
    fn formula(&mut self, mut hand_on: impl FnMut(Node)) -> Option<()> {
        let mut wanted = 1;
        while wanted > 0 {
            let node = self.node()?;
            match node.operator {
                Operator::True | Operator::Name => wanted -= 1,
                Operator::And | Operator::Implies => wanted += 1,
                Operator::Said | Operator::Put => {}
            }
            hand_on(node);
        }
        self.ended.then_some(())
    }
}

/// Codes 1 to 4.
pub fn read(file: &[u8]) -> Result<Parsed, Fault> {
    if file.len() > MOST_BYTES {
        return Err((1, 0));
    }
    let parsed = read_nodes(file)?;
    if let Some(start) = first_too_deep(&parsed) {
        return Err((4, start));
    }
    Ok(parsed)
}

/// Codes 2 and 3. Past 1,024 nodes the lines are still read for code 2, but
/// nothing more is kept.
fn read_nodes(file: &[u8]) -> Result<Parsed, Fault> {
    let mut nodes = Vec::with_capacity(MOST_NODES);
    let mut lines = Vec::new();
    let mut overfull = None;
    let mut start = 0;
    while start < file.len() {
        let is_query = match file[start..] {
            [b'H', b' ', ..] => false,
            [b'Q', b' ', ..] => true,
            _ => return Err((2, start)),
        };
        lines.push(Line {
            start,
            is_query,
            root: nodes.len(),
        });
        let mut reader = LineReader {
            file,
            at: start + 2,
            ended: false,
        };
        let formula = reader.formula(|node| {
            if nodes.len() < MOST_NODES {
                nodes.push(node);
            } else {
                overfull.get_or_insert(start);
            }
        });
        formula.ok_or((2, start))?;
        start = reader.at;
    }
    match overfull {
        Some(start) => Err((3, start)),
        None => Ok(Parsed { nodes, lines }),
    }
}

impl Parsed {
    /// The nodes of a line's formula.
    fn span(&self, line: usize) -> std::ops::Range<usize> {
        let end = self
            .lines
            .get(line + 1)
            .map_or(self.nodes.len(), |next| next.root);
        self.lines[line].root..end
    }
}

/// The start of the first line with a node under more than four quotations.
fn first_too_deep(parsed: &Parsed) -> Option<usize> {
    let mut depths = Vec::new();
    (0..parsed.lines.len())
        .find(|line| is_too_deep(&parsed.nodes[parsed.span(*line)], &mut depths))
        .map(|line| parsed.lines[line].start)
}

/// `depths` holds the depths of the operands still to come, the next one last.
fn is_too_deep(nodes: &[Node], depths: &mut Vec<usize>) -> bool {
    depths.clear();
    depths.push(0);
    nodes.iter().any(|node| {
        let depth = depths.pop().expect("a well-formed line");
        match node.operator {
            Operator::True | Operator::Name => {}
            Operator::And | Operator::Implies => depths.extend([depth, depth]),
            Operator::Said | Operator::Put => depths.push(depth + 1),
        }
        depth > MOST_DEPTH
    })
}

// ---------------------------------------------------------------------------
// Shared formulas
// ---------------------------------------------------------------------------

/// A formula's place among the shared ones; equal formulas have one place.
type Term = u32;

/// A shared formula: its operator, and the operands' places. A name stands in
/// place of the first operand.
#[derive(Clone, Copy)]
struct Shared {
    operator: Operator,
    first: u32,
    second: u32,
}

/// All formulas met so far, each once.
#[derive(Default)]
struct Store {
    names: Table<u128>,
    places: Table<u64>,
    formulas: Vec<Shared>,
}

impl Store {
    fn name(&mut self, name: u128) -> u32 {
        let fresh = self.names.len() as u32;
        *self.names.entry(name).or_insert(fresh)
    }

    fn share(&mut self, operator: Operator, first: u32, second: u32) -> Term {
        let key = (operator as u64) << 60 | u64::from(first) << 30 | u64::from(second);
        let formulas = &mut self.formulas;
        *self.places.entry(key).or_insert_with(|| {
            formulas.push(Shared {
                operator,
                first,
                second,
            });
            formulas.len() as u32 - 1
        })
    }

    /// Every weaker prefix followed by the formula, in the order of 01: from
    /// the innermost place outwards, all so far with `said`, then with `put`.
    fn weaker(&mut self, prefix: &[Place], formula: Term) -> Vec<Term> {
        let mut terms = Vec::with_capacity(1 << prefix.len());
        terms.push(formula);
        for place in prefix.iter().rev() {
            let inner = terms.len();
            for at in 0..inner {
                terms.push(self.share(Operator::Put, place.principal, terms[at]));
            }
            if place.is_put {
                terms.drain(..inner);
            } else {
                for term in &mut terms[..inner] {
                    *term = self.share(Operator::Said, place.principal, *term);
                }
            }
        }
        terms
    }
}

/// One place of a prefix.
#[derive(Clone, Copy, Default)]
struct Place {
    is_put: bool,
    principal: u32,
}

/// A row of quotations, outermost first.
#[derive(Clone, Copy, Default)]
struct Prefix {
    places: [Place; MOST_DEPTH],
    count: usize,
}

impl Prefix {
    fn places(&self) -> &[Place] {
        &self.places[..self.count]
    }

    fn push(&mut self, place: Place) {
        self.places[self.count] = place;
        self.count += 1;
    }

    /// The choices of `put` that make the prefix weaker, as bits with the
    /// outermost place weighing most. Counting up is the order of 01.
    fn choices(&self) -> impl Iterator<Item = u32> {
        let places = self.places().iter();
        let own = places.fold(0, |bits, place| bits << 1 | u32::from(place.is_put));
        (0..1 << self.count).filter(move |choice| choice & own == own)
    }
}

// ---------------------------------------------------------------------------
// Listing
// ---------------------------------------------------------------------------

#[derive(Clone, Copy)]
enum Shape {
    True,
    Name,
    And { left: u16, right: u16 },
    Implies { left: u16, right: u16 },
}

/// A listed formula. A family is the formulas with one base and one row of
/// principals; in it a formula is told apart by the places where it has `put`.
#[derive(Clone, Copy)]
struct Listed {
    shape: Shape,
    family: usize,
    puts: u32,
    is_hypothesis: bool,
}

/// The list of formulas that matter, ready to be closed under the rules.
pub struct List {
    listed: Vec<Listed>,
    families: Vec<Vec<u16>>,
    queries: Vec<u16>,
    left_of: Occurrences,
    right_of: Occurrences,
}

/// For each number, the compound formulas it is a certain part of, ascending.
struct Occurrences {
    ends: Vec<usize>,
    wholes: Vec<u16>,
}

impl Occurrences {
    fn of(listed: &[Listed], part: impl Fn(Shape) -> Option<u16>) -> Occurrences {
        let mut ends = vec![0; listed.len() + 1];
        for formula in listed {
            if let Some(number) = part(formula.shape) {
                ends[usize::from(number) + 1] += 1;
            }
        }
        for at in 1..ends.len() {
            ends[at] += ends[at - 1];
        }
        // Each number's first end now says where its wholes begin, and moves
        // on as they are put down.
        let mut wholes = vec![0; ends[listed.len()]];
        for (whole, formula) in listed.iter().enumerate() {
            if let Some(number) = part(formula.shape) {
                let end = &mut ends[usize::from(number)];
                wholes[*end] = whole as u16;
                *end += 1;
            }
        }
        Occurrences { ends, wholes }
    }

    fn at(&self, number: u16) -> &[u16] {
        let number = usize::from(number);
        let start = if number == 0 {
            0
        } else {
            self.ends[number - 1]
        };
        &self.wholes[start..self.ends[number]]
    }
}

/// A listed formula while its parts may not have numbers yet.
struct Draft {
    operator: Operator,
    parts: Option<(Term, Term)>,
    family: usize,
    puts: u32,
}

/// What is known of a shared formula.
#[derive(Clone, Copy, Default)]
struct Known {
    number: Option<u16>,
    /// Its family, noted at the family's weakest formula.
    family: Option<usize>,
}

/// The list while it grows.
struct Listing<'p> {
    parsed: &'p Parsed,
    store: Store,
    /// The shared formula of each node.
    terms: Vec<Term>,
    /// By shared formula.
    known: Vec<Known>,
    drafts: Vec<Draft>,
    families: Vec<Vec<u16>>,
}

/// Lists the formulas that matter; code 5.
pub fn list(parsed: &Parsed) -> Result<List, Fault> {
    let mut listing = Listing::new(parsed);
    for line in 0..parsed.lines.len() {
        listing
            .list_line(line)
            .ok_or((5, parsed.lines[line].start))?;
    }
    Ok(listing.finish())
}

impl<'p> Listing<'p> {
    fn new(parsed: &'p Parsed) -> Self {
        let mut store = Store::default();
        let terms = share_all(parsed, &mut store);
        Listing {
            parsed,
            store,
            terms,
            known: Vec::new(),
            drafts: Vec::new(),
            families: Vec::new(),
        }
    }

    /// Lists what a line's bases need; nothing if the list grows too long.
    fn list_line(&mut self, line: usize) -> Option<()> {
        // The prefixes of the operands still to come, the next one last.
        let mut prefixes = vec![Prefix::default()];
        for at in self.parsed.span(line) {
            let node = self.parsed.nodes[at];
            let mut prefix = prefixes.pop().expect("a well-formed line");
            if node.operator.is_quotation() {
                prefix.push(Place {
                    is_put: node.operator == Operator::Put,
                    principal: self.store.name(node.name),
                });
                prefixes.push(prefix);
                continue;
            }
            self.list_base(&prefix, self.terms[at])?;
            if node.operator.is_compound() {
                prefixes.extend([prefix, prefix]);
            }
        }
        Some(())
    }

    /// Lists every weaker prefix followed by the base. The parts under the same
    /// prefixes come in the same order.
    fn list_base(&mut self, prefix: &Prefix, base: Term) -> Option<()> {
        let Shared {
            operator,
            first,
            second,
        } = self.store.formulas[base as usize];
        let wholes = self.store.weaker(prefix.places(), base);
        let parts: Vec<(Term, Term)> = if operator.is_compound() {
            let lefts = self.store.weaker(prefix.places(), first);
            let rights = self.store.weaker(prefix.places(), second);
            lefts.into_iter().zip(rights).collect()
        } else {
            Vec::new()
        };
        self.known
            .resize(self.store.formulas.len(), Known::default());
        let family = self.family(wholes[wholes.len() - 1]);
        for (at, puts) in prefix.choices().enumerate() {
            let draft = Draft {
                operator,
                parts: parts.get(at).copied(),
                family,
                puts,
            };
            self.append(wholes[at], draft)?;
        }
        Some(())
    }

    /// Lists a formula unless it is listed; nothing if the list is full.
    fn append(&mut self, term: Term, draft: Draft) -> Option<()> {
        let known = &mut self.known[term as usize];
        if known.number.is_some() {
            return Some(());
        }
        if self.drafts.len() == MOST_LISTED {
            return None;
        }
        let number = self.drafts.len() as u16;
        known.number = Some(number);
        self.families[draft.family].push(number);
        self.drafts.push(draft);
        Some(())
    }

    /// The family with this weakest formula, which has `put` at all places.
    fn family(&mut self, weakest: Term) -> usize {
        let families = &mut self.families;
        *self.known[weakest as usize].family.get_or_insert_with(|| {
            families.push(Vec::new());
            families.len() - 1
        })
    }

    fn number(&self, term: Term) -> u16 {
        let known = self.known[term as usize];
        known
            .number
            .expect("lines and parts of listed formulas are listed")
    }

    fn shape(&self, draft: &Draft) -> Shape {
        let parts = draft.parts.map(|(x, y)| (self.number(x), self.number(y)));
        match (draft.operator, parts) {
            (Operator::And, Some((left, right))) => Shape::And { left, right },
            (Operator::Implies, Some((left, right))) => Shape::Implies { left, right },
            (Operator::True, _) => Shape::True,
            _ => Shape::Name,
        }
    }

    fn finish(self) -> List {
        let drafts = self.drafts.iter();
        let mut listed: Vec<Listed> = drafts
            .map(|draft| Listed {
                shape: self.shape(draft),
                family: draft.family,
                puts: draft.puts,
                is_hypothesis: false,
            })
            .collect();
        let mut queries = Vec::new();
        for line in &self.parsed.lines {
            let number = self.number(self.terms[line.root]);
            if line.is_query {
                queries.push(number);
            } else {
                listed[usize::from(number)].is_hypothesis = true;
            }
        }
        let left_of = Occurrences::of(&listed, |shape| match shape {
            Shape::And { left, .. } | Shape::Implies { left, .. } => Some(left),
            _ => None,
        });
        let right_of = Occurrences::of(&listed, |shape| match shape {
            Shape::And { right, .. } | Shape::Implies { right, .. } => Some(right),
            _ => None,
        });
        List {
            listed,
            families: self.families,
            queries,
            left_of,
            right_of,
        }
    }
}

/// Shares the formula of every node, from the last to the first, so that
/// operands come before their operators. `operands` holds those not yet taken,
/// the leftmost last.
fn share_all(parsed: &Parsed, store: &mut Store) -> Vec<Term> {
    let mut terms = vec![0; parsed.nodes.len()];
    let mut operands: Vec<Term> = Vec::new();
    for (at, node) in parsed.nodes.iter().enumerate().rev() {
        let mut operand = || operands.pop().expect("a well-formed line");
        let (first, second) = match node.operator {
            Operator::True => (0, 0),
            Operator::Name => (store.name(node.name), 0),
            Operator::And | Operator::Implies => (operand(), operand()),
            Operator::Said | Operator::Put => (store.name(node.name), operand()),
        };
        terms[at] = store.share(node.operator, first, second);
        operands.push(terms[at]);
    }
    terms
}

impl List {
    /// L.
    pub fn listed(&self) -> usize {
        self.listed.len()
    }

    /// The number of queries.
    pub fn queries(&self) -> usize {
        self.queries.len()
    }

    fn get(&self, number: u16) -> &Listed {
        &self.listed[usize::from(number)]
    }

    /// Rule 3 from one formula to another that differs from it.
    fn weakens(&self, stronger: u16, weaker: u16) -> bool {
        let (stronger, weaker) = (self.get(stronger), self.get(weaker));
        stronger.family == weaker.family
            && stronger.puts != weaker.puts
            && stronger.puts & weaker.puts == stronger.puts
    }
}

// ---------------------------------------------------------------------------
// Closing
// ---------------------------------------------------------------------------

/// A set of numbers below 4,096 with its least member at hand.
struct Numbers {
    words: [u64; MOST_LISTED / 64],
    /// Which words are not empty.
    summary: u64,
}

impl Numbers {
    fn new() -> Numbers {
        Numbers {
            words: [0; MOST_LISTED / 64],
            summary: 0,
        }
    }

    fn contains(&self, number: u16) -> bool {
        self.words[usize::from(number / 64)] >> (number % 64) & 1 == 1
    }

    fn insert(&mut self, number: u16) {
        self.words[usize::from(number / 64)] |= 1 << (number % 64);
        self.summary |= 1 << (number / 64);
    }

    fn remove(&mut self, number: u16) {
        let word = &mut self.words[usize::from(number / 64)];
        *word &= !(1 << (number % 64));
        if *word == 0 {
            self.summary &= !(1 << (number / 64));
        }
    }

    fn least(&self) -> Option<u16> {
        let word = self.summary.trailing_zeros();
        let bits = self.words.get(word as usize)?;
        Some((64 * word + bits.trailing_zeros()) as u16)
    }
}

/// A record's rule and premises.
struct Way(u8, u16, u16);

/// What closing leaves.
pub struct Closed<'l> {
    pub kept: usize,
    pub added: usize,
    closure: Closure<'l>,
}

/// The recorded formulas, and those not recorded that have a good record.
struct Closure<'l> {
    list: &'l List,
    recorded: Numbers,
    ready: Numbers,
}

/// Keeps the good part of the journal's first `used` bytes and adds at most
/// `limit` records right after it. The buffer must have room for the list.
pub fn close<'l>(list: &'l List, journal: &mut [u8], used: usize, limit: usize) -> Closed<'l> {
    let mut closure = Closure::new(list);
    let kept = closure.keep(&journal[..used]);
    let added = closure.add(&mut journal[RECORD_BYTES * kept..], limit);
    Closed {
        kept,
        added,
        closure,
    }
}

impl Closed<'_> {
    pub fn finished(&self) -> bool {
        self.closure.ready.least().is_none()
    }

    /// One byte for each query, in file order.
    pub fn answers(&self) -> impl Iterator<Item = u8> + '_ {
        let unrecorded = if self.finished() { 0 } else { 2 };
        let queries = self.closure.list.queries.iter();
        queries.map(move |query| match self.closure.recorded.contains(*query) {
            true => 1,
            false => unrecorded,
        })
    }
}

impl<'l> Closure<'l> {
    fn new(list: &'l List) -> Self {
        let mut closure = Closure {
            list,
            recorded: Numbers::new(),
            ready: Numbers::new(),
        };
        for (number, formula) in list.listed.iter().enumerate() {
            if formula.is_hypothesis || matches!(formula.shape, Shape::True) {
                closure.ready.insert(number as u16);
            }
        }
        closure
    }

    /// Takes in the journal's good records up to the first that is not.
    fn keep(&mut self, journal: &[u8]) -> usize {
        let mut kept = 0;
        for bytes in journal.chunks_exact(RECORD_BYTES) {
            let number = |at: usize| u16::from_be_bytes([bytes[at], bytes[at + 1]]);
            let way = Way(bytes[2], number(5), number(7));
            if bytes[..2] != MARK || !self.is_good(number(3), &way) {
                break;
            }
            self.record(number(3));
            kept += 1;
        }
        kept
    }

    /// Adds next records until the limit is reached or there is none.
    fn add(&mut self, tail: &mut [u8], limit: usize) -> usize {
        let mut added = 0;
        for bytes in tail.chunks_exact_mut(RECORD_BYTES).take(limit) {
            let Some(number) = self.ready.least() else {
                break;
            };
            let Way(rule, first, second) = self.least_way(number);
            bytes[..2].copy_from_slice(&MARK);
            bytes[2] = rule;
            bytes[3..5].copy_from_slice(&number.to_be_bytes());
            bytes[5..7].copy_from_slice(&first.to_be_bytes());
            bytes[7..].copy_from_slice(&second.to_be_bytes());
            self.record(number);
            added += 1;
        }
        added
    }

    /// Whether the number is a recorded one; FF FF never is.
    fn is_recorded(&self, number: u16) -> bool {
        usize::from(number) < self.list.listed() && self.recorded.contains(number)
    }

    fn is_good(&self, number: u16, way: &Way) -> bool {
        usize::from(number) < self.list.listed()
            && !self.recorded.contains(number)
            && self.premises_fit(way)
            && self.gives(number, way)
    }

    /// Whether the premises that the rule has are recorded, and the others
    /// FF FF.
    fn premises_fit(&self, way: &Way) -> bool {
        let Way(rule, first, second) = *way;
        match rule {
            1 | 2 => first == NO_PREMISE && second == NO_PREMISE,
            3 | 4 | 5 | 8 => self.is_recorded(first) && second == NO_PREMISE,
            6 | 7 => self.is_recorded(first) && self.is_recorded(second),
            _ => false,
        }
    }

    fn gives(&self, number: u16, way: &Way) -> bool {
        let Way(rule, first, second) = *way;
        let formula = self.list.get(number);
        match rule {
            1 => formula.is_hypothesis,
            2 => matches!(formula.shape, Shape::True),
            3 => self.list.weakens(first, number),
            4 => matches!(self.list.get(first).shape, Shape::And { left, .. } if left == number),
            5 => matches!(self.list.get(first).shape, Shape::And { right, .. } if right == number),
            6 => matches!(formula.shape, Shape::And { left, right }
                if left == first && right == second),
            7 => matches!(self.list.get(second).shape, Shape::Implies { left, right }
                if left == first && right == number),
            _ => matches!(formula.shape, Shape::Implies { right, .. } if right == first),
        }
    }

    /// Records a formula and finds what has a good record because of it.
    fn record(&mut self, number: u16) {
        let list = self.list;
        self.recorded.insert(number);
        self.ready.remove(number);
        for weaker in &list.families[list.get(number).family] {
            if list.weakens(number, *weaker) {
                self.make_ready(*weaker);
            }
        }
        self.record_whole(number);
        for whole in list.left_of.at(number) {
            self.record_left(*whole);
        }
        for whole in list.right_of.at(number) {
            self.record_right(*whole);
        }
    }

    /// The formula has a good record from now on.
    fn make_ready(&mut self, number: u16) {
        if !self.recorded.contains(number) {
            self.ready.insert(number);
        }
    }

    /// Rules 4, 5 and 7 from the compound formula just recorded.
    fn record_whole(&mut self, number: u16) {
        match self.list.get(number).shape {
            Shape::And { left, right } => {
                self.make_ready(left);
                self.make_ready(right);
            }
            Shape::Implies { left, right } if self.recorded.contains(left) => {
                self.make_ready(right);
            }
            _ => {}
        }
    }

    /// Rules 6 and 7 where the left part of `whole` was just recorded.
    fn record_left(&mut self, whole: u16) {
        match self.list.get(whole).shape {
            Shape::And { right, .. } if self.recorded.contains(right) => self.make_ready(whole),
            Shape::Implies { right, .. } if self.recorded.contains(whole) => {
                self.make_ready(right);
            }
            _ => {}
        }
    }

    /// Rules 6 and 8 where the right part of `whole` was just recorded.
    fn record_right(&mut self, whole: u16) {
        match self.list.get(whole).shape {
            Shape::And { left, .. } if self.recorded.contains(left) => self.make_ready(whole),
            Shape::Implies { .. } => self.make_ready(whole),
            _ => {}
        }
    }

    /// The least rule and premises that give a formula known to be ready.
    fn least_way(&self, number: u16) -> Way {
        (1..=8)
            .find_map(|rule| {
                let (first, second) = self.least_premises(number, rule)?;
                Some(Way(rule, first, second))
            })
            .expect("a ready formula has a good record")
    }

    /// The least recorded premises from which the rule gives the formula.
    fn least_premises(&self, number: u16, rule: u8) -> Option<(u16, u16)> {
        let list = self.list;
        let formula = list.get(number);
        let good = |first: u16, second: u16| {
            let way = Way(rule, first, second);
            (self.premises_fit(&way) && self.gives(number, &way)).then_some((first, second))
        };
        let first_of = |numbers: &[u16]| numbers.iter().find_map(|n| good(*n, NO_PREMISE));
        match (rule, formula.shape) {
            (1 | 2, _) => good(NO_PREMISE, NO_PREMISE),
            (3, _) => first_of(&list.families[formula.family]),
            (4, _) => first_of(list.left_of.at(number)),
            (5, _) => first_of(list.right_of.at(number)),
            (6, Shape::And { left, right }) => good(left, right),
            (7, _) => {
                let wholes = list.right_of.at(number).iter();
                wholes
                    .filter_map(|whole| match list.get(*whole).shape {
                        Shape::Implies { left, .. } => good(left, *whole),
                        _ => None,
                    })
                    .min()
            }
            (8, Shape::Implies { right, .. }) => good(right, NO_PREMISE),
            _ => None,
        }
    }
}

/// The run of 01. Code 9 is never due: the buffer has room for the whole list
/// and no formula is recorded twice.
pub fn run(
    file: &[u8],
    journal: &mut [u8],
    used: usize,
    limit: usize,
    answers: &mut [u8],
) -> Report {
    let list = match read(file).and_then(|parsed| list(&parsed)) {
        Ok(list) => list,
        Err((code, place)) => return Report::refusal(code, place, used),
    };
    if journal.len() < RECORD_BYTES * list.listed() {
        return Report::refusal(6, 0, used);
    }
    if used > journal.len() {
        return Report::refusal(7, 0, used);
    }
    if answers.len() < list.queries() {
        return Report::refusal(8, 0, used);
    }
    let closed = close(&list, journal, used, limit);
    for (byte, answer) in answers.iter_mut().zip(closed.answers()) {
        *byte = answer;
    }
    Report {
        code: 0,
        place: 0,
        kept: closed.kept,
        added: closed.added,
        finished: closed.finished(),
        used: RECORD_BYTES * (closed.kept + closed.added),
    }
}
