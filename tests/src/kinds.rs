//! Kinds of files that grow with the nodes they are made of.

/// The most nodes a file is made of.
pub const MOST_NODES: [usize; 5] = [64, 128, 256, 512, 1_024];

/// A kind of file that is timed, made of at most so many nodes.
pub struct Kind {
    pub name: &'static str,
    pub make: fn(usize) -> Vec<u8>,
}

pub const KINDS: [Kind; 6] = [
    Kind {
        name: "night",
        make: night,
    },
    Kind {
        name: "full",
        make: full,
    },
    Kind {
        name: "parts",
        make: parts,
    },
    Kind {
        name: "reverse",
        make: reverse,
    },
    Kind {
        name: "one name",
        make: one_name,
    },
    Kind {
        name: "nested",
        make: nested,
    },
];

/// Lenders trust notaries about liens and ask about each: nine nodes a lien.
pub fn night(nodes: usize) -> Vec<u8> {
    let lines = (0..nodes / 9).map(|lien| {
        let notary = lien % 7;
        format!(
            "H > S notary-{notary} lien-{lien} lien-{lien}\n\
             H S notary-{notary} lien-{lien}\n\
             Q lien-{lien}\n\
             Q P notary-{notary} lien-{lien}\n"
        )
    });
    lines.collect::<String>().into_bytes()
}

/// As many nodes and nearly as many listed formulas as a file may have: queries
/// about the parts of a conjunction take what its list leaves of the nodes.
pub fn full(nodes: usize) -> Vec<u8> {
    let leaves = nodes / 8;
    let mut text = parts(nodes);
    for query in 0..(nodes - 4 - (2 * leaves - 1)) / 5 {
        text.extend(format!("Q P a S b P c S d x{}\n", query % leaves).bytes());
    }
    text
}

/// A conjunction under four times said. This file and the next two have few nodes
/// and about four listed formulas for each that they may have.
pub fn parts(nodes: usize) -> Vec<u8> {
    format!("H S a S b S c S d {}\n", conjunction(nodes / 8)).into_bytes()
}

/// Implications attached one to another, `> y > y .. x0`, and `x0` at the end of a
/// chain `> x1 x0`, `> x2 x1`, ..: where all is said each formula comes from one
/// with a greater number.
pub fn reverse(nodes: usize) -> Vec<u8> {
    let steps = nodes / 16;
    let attached = "> y ".repeat(steps);
    let mut text = format!("Q S a S b S c S d {attached}x0\nH S a S b S c S d ");
    for step in 0..steps {
        text += &format!("+ > x{} x{step} ", step + 1);
    }
    text += &format!("x{steps}\n");
    text.into_bytes()
}

/// One name in two of five formulas, as condition and as conclusion.
pub fn one_name(nodes: usize) -> Vec<u8> {
    let mut text = String::from("H S a S b S c S d ");
    for count in 0..nodes / 20 {
        text += &format!("+ > hub x{count} + > x{count} hub ");
    }
    text += "hub\n";
    text.into_bytes()
}

/// One conjunction of everything: the longest spellings.
pub fn nested(nodes: usize) -> Vec<u8> {
    format!("H {}\n", conjunction(nodes / 2)).into_bytes()
}

/// The night where two clerks pass everything on, and the queries ask for it as
/// put: 17 nodes and 18 listed formulas a lien.
pub fn clerks(nodes: usize) -> Vec<u8> {
    let lines = (0..nodes / 17).map(|lien| {
        let (said, notary) = ("S clerk S deputy", lien % 7);
        format!(
            "H {said} > S notary-{notary} lien-{lien} lien-{lien}\n\
             H {said} S notary-{notary} lien-{lien}\n\
             Q P clerk S deputy lien-{lien}\n\
             Q S clerk P deputy P judge lien-{lien}\n"
        )
    });
    lines.collect::<String>().into_bytes()
}

/// Twelve names of which each implies each other one, as far as the nodes go; one
/// of them is given, and at one place it is only put.
pub fn dense(nodes: usize) -> Vec<u8> {
    let names = 12;
    let pairs = (1..names).flat_map(|step| (0..names).map(move |name| (name, step)));
    let mut text = String::from("H S a S b S c S d ");
    for (name, step) in pairs.take(nodes / 8 - names) {
        text += &format!("+ > x{name} x{} ", (name + step) % names);
    }
    text += "T\nH S a P b S c S d x0\n";
    for name in 0..names {
        text += &format!("Q P a P b S c S d x{name}\nQ S a S b P c P d x{name}\n");
    }
    text.into_bytes()
}

/// So many names joined by `+`, grouped to the right.
fn conjunction(leaves: usize) -> String {
    let mut text = String::new();
    for leaf in 1..leaves {
        text += &format!("+ x{leaf} ");
    }
    text + "x0"
}

/// The nodes of a file: every token is one but a line's letter and a principal.
pub fn nodes(file: &[u8]) -> usize {
    let text = String::from_utf8_lossy(file);
    let of_line = |line: &str| {
        let tokens = line.split(' ').skip(1);
        tokens.clone().count() - tokens.filter(|token| ["S", "P"].contains(token)).count()
    };
    text.lines().map(of_line).sum()
}
