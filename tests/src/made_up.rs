//! Made-up policy files: small ones, lenders and notaries, tangled
//! implications, deep quotations, files at each limit, and damaged ones.

use crate::rng::Rng;

/// A generator of policy files.
pub type Maker = fn(&mut Rng) -> Vec<u8>;

/// All generators of files that are mostly accepted.
pub const MAKERS: [Maker; 5] = [small, lenders, tangled, late, deep];

/// A file by any of these generators.
pub fn any(rng: &mut Rng) -> Vec<u8> {
    rng.one_of(&MAKERS)(rng)
}

const NAMES: [&str; 6] = ["b", "c", "d", "paid", "lien-7", "0"];
const PRINCIPALS: [&str; 4] = ["a", "bank", "b", "-"];

// ---------------------------------------------------------------------------
// Formulas and lines
// ---------------------------------------------------------------------------

fn leaf(rng: &mut Rng) -> String {
    if rng.once_in(8) {
        return "T".into();
    }
    let few = 2 + rng.below(NAMES.len() - 1);
    rng.one_of(&NAMES[..few]).to_string()
}

fn quotation(rng: &mut Rng) -> String {
    let letter = if rng.once_in(3) { 'P' } else { 'S' };
    let few = 1 + rng.below(PRINCIPALS.len());
    format!("{letter} {}", rng.one_of(&PRINCIPALS[..few]))
}

/// So many quotations in a row, each with a space behind it.
fn row(rng: &mut Rng, places: usize) -> String {
    (0..places).map(|_| quotation(rng) + " ").collect()
}

/// Any formula with so many operators, at most `depth` of them in each other
/// being quotations.
fn formula(rng: &mut Rng, operators: usize, depth: usize) -> String {
    if operators == 0 {
        return leaf(rng);
    }
    if depth > 0 && rng.once_in(2) {
        let quotation = quotation(rng);
        return format!("{quotation} {}", formula(rng, operators - 1, depth - 1));
    }
    let left = rng.below(operators);
    let operator = rng.one_of(&['+', '>']);
    let x = formula(rng, left, depth);
    let y = formula(rng, operators - 1 - left, depth);
    format!("{operator} {x} {y}")
}

/// The formula with some `said` of its outermost row made `put`.
fn weakened(rng: &mut Rng, formula: &str) -> String {
    let mut tokens: Vec<&str> = formula.split(' ').collect();
    for place in (0..tokens.len()).step_by(2) {
        match tokens[place] {
            "S" if rng.once_in(2) => tokens[place] = "P",
            "S" | "P" => {}
            _ => break,
        }
    }
    tokens.join(" ")
}

/// A query about nearly the same formula: one quotation, at any place, has the
/// other kind.
fn echo(rng: &mut Rng, line: &str) -> Option<String> {
    let mut tokens: Vec<&str> = line.split(' ').skip(1).collect();
    let places: Vec<usize> = (0..tokens.len())
        .filter(|at| matches!(tokens[*at], "S" | "P"))
        .collect();
    if places.is_empty() {
        return None;
    }
    let place = *rng.one_of(&places);
    tokens[place] = if tokens[place] == "S" { "P" } else { "S" };
    Some(format!("Q {}", tokens.join(" ")))
}

/// The lines and a few echoes of them in any order.
fn file_of(rng: &mut Rng, mut lines: Vec<String>) -> Vec<u8> {
    for at in 0..lines.len() {
        if rng.once_in(4) {
            lines.extend(echo(rng, &lines[at]));
        }
    }
    rng.shuffle(&mut lines);
    text_of(&lines)
}

/// The lines, each ended by its line feed.
fn text_of(lines: &[String]) -> Vec<u8> {
    let ended = lines.iter().flat_map(|line| [line.as_str(), "\n"]);
    ended.collect::<String>().into_bytes()
}

// ---------------------------------------------------------------------------
// Kinds of files
// ---------------------------------------------------------------------------

/// A few lines with a few operators each.
pub fn small(rng: &mut Rng) -> Vec<u8> {
    let count = rng.below(8);
    let lines = (0..count)
        .map(|_| {
            let operators = rng.below(6);
            let letter = rng.one_of(&['H', 'H', 'Q']);
            format!("{letter} {}", formula(rng, operators, 4))
        })
        .collect();
    file_of(rng, lines)
}

/// Lenders trust notaries about liens and releases, and ask about them.
pub fn lenders(rng: &mut Rng) -> Vec<u8> {
    let (notaries, liens) = (1 + rng.below(3), 1 + rng.below(5));
    let mut lines = Vec::new();
    for lien in 1..=liens {
        let notary = 1 + rng.below(notaries);
        let lien = format!("lien-{lien}");
        lines.push(format!("H > S notary-{notary} {lien} {lien}"));
        lines.extend(lien_lines(rng, notary, &lien));
    }
    lines.push("H P bank > paid released".into());
    lines.push("H S bank paid".into());
    lines.push("Q P bank released".into());
    file_of(rng, lines)
}

/// Some of what may be on file or asked about one lien.
fn lien_lines(rng: &mut Rng, notary: usize, lien: &str) -> Vec<String> {
    let mut lines = vec![
        format!("H S notary-{notary} {lien}"),
        format!("H P notary-{notary} {lien}"),
        format!("H S bank > {lien} + {lien} paid"),
        format!("H > {lien} S desk {lien}"),
        format!("H S clerk S notary-{notary} {lien}"),
        format!("H > S clerk S notary-{notary} {lien} S bank {lien}"),
        format!("Q {lien}"),
        format!("Q P notary-{notary} {lien}"),
        format!("Q S bank + paid {lien}"),
        format!("Q P desk {lien}"),
        format!("Q P clerk S notary-{notary} {lien}"),
    ];
    rng.shuffle(&mut lines);
    lines.truncate(3 + rng.below(6));
    lines
}

/// Implications and conjunctions between a few formulas, so that much follows
/// in many ways.
pub fn tangled(rng: &mut Rng) -> Vec<u8> {
    let pool_size = 3 + rng.below(5);
    let pool: Vec<String> = (0..pool_size)
        .map(|_| {
            let places = rng.below(3);
            row(rng, places) + &leaf(rng)
        })
        .collect();
    let count = 3 + rng.below(12);
    let lines = (0..count).map(|_| tangled_line(rng, &pool)).collect();
    file_of(rng, lines)
}

fn tangled_line(rng: &mut Rng, pool: &[String]) -> String {
    let places = rng.below(3).saturating_sub(1);
    let prefix = row(rng, places);
    let (x, y) = (rng.one_of(pool).clone(), rng.one_of(pool).clone());
    match rng.below(8) {
        0 | 1 => format!("H {x}"),
        2 | 3 => format!("H {prefix}> {x} {y}"),
        4 => format!("H {prefix}> + {x} {y} {}", rng.one_of(pool)),
        5 => format!("H + {x} {prefix}{y}"),
        6 => format!("Q {}", weakened(rng, &x)),
        _ => format!("Q {prefix}{} {x} {y}", rng.one_of(&['+', '>'])),
    }
}

/// Queries first and the facts last: most formulas have their numbers before
/// anything follows, and then follow in several ways at once.
pub fn late(rng: &mut Rng) -> Vec<u8> {
    let places = rng.below(3);
    let prefix = row(rng, places);
    let mut pool: Vec<String> = NAMES.iter().map(|name| format!("{prefix}{name}")).collect();
    rng.shuffle(&mut pool);
    let asked = rng.below(5);
    let mut lines: Vec<String> = pool[..asked].iter().map(|x| format!("Q {x}")).collect();
    for _ in 0..2 + rng.below(6) {
        let (x, y) = (rng.one_of(&pool), rng.one_of(&pool[..3]));
        let names = (&x[prefix.len()..], &y[prefix.len()..]);
        lines.push(match rng.below(5) {
            0 => format!("H {prefix}> {} {}", names.0, names.1),
            1 => format!("H {prefix}+ {} {}", names.0, names.1),
            2 => format!("Q {prefix}+ {} {}", names.0, names.1),
            3 => format!("H > late {}", weakened(rng, x)),
            _ => format!("H > {x} {}", weakened(rng, y)),
        });
    }
    lines.push(format!(
        "H > late + {} {}",
        rng.one_of(&pool),
        rng.one_of(&pool)
    ));
    lines.push("H late".into());
    text_of(&lines)
}

/// Rows of three or four quotations, whole or split by an operator, said at
/// some places and put at others; now and then one too many.
pub fn deep(rng: &mut Rng) -> Vec<u8> {
    let places = if rng.once_in(20) { 5 } else { 3 + rng.below(2) };
    let whole = row(rng, places);
    let tokens: Vec<&str> = whole.split_whitespace().collect();
    let cut = 2 * rng.below(places);
    let (outer, inner) = (tokens[..cut].join(" "), tokens[cut..].join(" "));
    let outer = if outer.is_empty() { outer } else { outer + " " };
    let count = 2 + rng.below(4);
    let lines = (0..count)
        .map(|_| {
            let (x, y) = (leaf(rng), leaf(rng));
            let operator = rng.one_of(&['+', '>']);
            let formula = match rng.below(4) {
                0 => format!("{outer}{operator} {inner} {x} {inner} {y}"),
                1 => format!("{whole}{operator} {x} {y}"),
                _ => format!("{whole}{x}"),
            };
            let letter = rng.one_of(&['H', 'H', 'Q']);
            format!("{letter} {}", weakened(rng, &formula))
        })
        .collect();
    file_of(rng, lines)
}

/// As many nodes as are mostly accepted under rows of up to four quotations,
/// with a list of hundreds or thousands.
pub fn large(rng: &mut Rng) -> Vec<u8> {
    let depth = rng.below(5);
    let most_nodes = 1_024.min(4_800 >> depth);
    let whole = row(rng, depth);
    let mut text = String::new();
    let mut nodes = 0;
    loop {
        let leaves = 1 + rng.below(24);
        nodes += depth + 2 * leaves - 1;
        if nodes > most_nodes {
            return text.into_bytes();
        }
        let letter = rng.one_of(&['H', 'H', 'Q']);
        let formula = format!("{whole}{}", chain(rng, leaves));
        text += &format!("{letter} {}\n", weakened(rng, &formula));
    }
}

/// So many names joined by `+` and now and then `>`, grouped to the right.
fn chain(rng: &mut Rng, leaves: usize) -> String {
    let mut text = String::new();
    for _ in 1..leaves {
        let operator = if rng.once_in(8) { '>' } else { '+' };
        text += &format!("{operator} n{} ", rng.below(60));
    }
    text + &format!("n{}", rng.below(60))
}

// ---------------------------------------------------------------------------
// Damage
// ---------------------------------------------------------------------------

/// Bytes that no well-formed line has, and a few that it has elsewhere.
const WRONG_BYTES: [u8; 16] = [
    0, b'\t', b'\r', b'\n', b' ', b'A', b'T', b'S', b'W', b'_', b'.', b'+', 127, 128, 0xC3, 0xFF,
];

/// The file with one to three faults, though a fault may turn out harmless.
pub fn damaged(rng: &mut Rng, mut file: Vec<u8>) -> Vec<u8> {
    for _ in 0..1 + rng.below(3) {
        damage(rng, &mut file);
    }
    file
}

fn damage(rng: &mut Rng, file: &mut Vec<u8>) {
    if file.is_empty() {
        file.push(*rng.one_of(&WRONG_BYTES));
        return;
    }
    let at = rng.below(file.len());
    match rng.below(9) {
        0 => file[at] = *rng.one_of(&WRONG_BYTES),
        1 => file.insert(at, *rng.one_of(&WRONG_BYTES)),
        2 => file.truncate(at),
        3 => drop(file.remove(at)),
        4 => drop_one(rng, file, b'\n'),
        5 => drop_one(rng, file, b' '),
        6 => double_one(rng, file, b' '),
        7 => around_line_feed(rng, file),
        _ => exchange_token(rng, file),
    }
}

fn places_of(file: &[u8], byte: u8) -> Vec<usize> {
    (0..file.len()).filter(|at| file[*at] == byte).collect()
}

fn drop_one(rng: &mut Rng, file: &mut Vec<u8>, byte: u8) {
    let places = places_of(file, byte);
    if !places.is_empty() {
        file.remove(*rng.one_of(&places));
    }
}

fn double_one(rng: &mut Rng, file: &mut Vec<u8>, byte: u8) {
    let places = places_of(file, byte);
    if !places.is_empty() {
        file.insert(*rng.one_of(&places), byte);
    }
}

/// Puts a stray byte before or behind a line feed.
fn around_line_feed(rng: &mut Rng, file: &mut Vec<u8>) {
    let places = places_of(file, b'\n');
    if !places.is_empty() {
        let at = *rng.one_of(&places) + rng.below(2);
        file.insert(at, *rng.one_of(b" \r\n\t"));
    }
}

/// Puts something else in place of a token: nothing, a name that is too long or
/// just short enough, an operator, or two tokens.
fn exchange_token(rng: &mut Rng, file: &mut Vec<u8>) {
    let is_end = |byte: &u8| matches!(byte, b' ' | b'\n');
    let at = rng.below(file.len());
    let start = file[..at].iter().rposition(is_end).map_or(0, |end| end + 1);
    let length = file[start..].iter().position(is_end).unwrap_or(0);
    let tokens = [
        "",
        "sixteen-letters-",
        "seventeen-letters",
        "T",
        "+",
        ">",
        "S",
        "P a",
        "b c",
        "H",
        "w",
    ];
    let token = rng.one_of(&tokens).bytes();
    file.splice(start..start + length, token);
}

// ---------------------------------------------------------------------------
// Files at and one past each limit
// ---------------------------------------------------------------------------

/// A file with the code and place that 01 gives it, 0 and 0 where it is
/// accepted.
pub struct Edge {
    pub what: &'static str,
    pub file: Vec<u8>,
    pub code: usize,
    pub place: usize,
}

fn edge(what: &'static str, file: impl Into<Vec<u8>>, code: usize, place: usize) -> Edge {
    Edge {
        what,
        file: file.into(),
        code,
        place,
    }
}

/// The shortest line of a fact: four bytes, one node.
const FACT: &str = "H b\n";

/// Code 2: so many facts, and a last line that is not well formed.
fn stray_behind(what: &'static str, facts: usize, last: &str) -> Edge {
    edge(what, FACT.repeat(facts) + last, 2, FACT.len() * facts)
}

/// Code 1, and 01's remark on 32,768 bytes.
pub fn edges_of_length() -> Vec<Edge> {
    vec![
        edge("32,768 bytes, too many nodes", FACT.repeat(8_192), 3, 4_096),
        edge("32,768 bytes, one long name", "H".repeat(32_768), 2, 0),
        stray_behind("32,768 bytes, the last stray", 8_191, "H b "),
        edge(
            "32,769 bytes, well formed",
            FACT.repeat(8_191) + "H bb\n",
            1,
            0,
        ),
        edge("32,769 bytes, not well formed", "x".repeat(32_769), 1, 0),
        edge("40,000 bytes", FACT.repeat(10_000), 1, 0),
        edge(
            "19,456 bytes, the most with 1,024 nodes",
            "H abcdefghijklmnop\n".repeat(1_024),
            0,
            0,
        ),
        edge(
            "one node more",
            "H abcdefghijklmnop\n".repeat(1_025),
            3,
            19_456,
        ),
        edge(
            "deep and cut short",
            format!("H b\nQ {}", "+ ".repeat(16_000)),
            2,
            4,
        ),
        edge(
            "deep and one operand short",
            format!("H b\nQ {}b\n", "> b ".repeat(8_000) + "> "),
            2,
            4,
        ),
        edge(
            "deep and whole",
            format!("H b\nQ {}b\n", "> b ".repeat(8_000)),
            3,
            4,
        ),
        edge(
            "deep to the left",
            format!("Q {}b{}\n", "+ ".repeat(8_000), " b".repeat(8_000)),
            3,
            0,
        ),
        edge(
            "8,000 quotations",
            format!("Q {}b\n", "S a ".repeat(8_000)),
            3,
            0,
        ),
    ]
}

/// Code 2.
pub fn edges_of_form() -> Vec<Edge> {
    let name = "abcdefghijklmn-9";
    let mut edges = vec![
        edge("empty file", "", 0, 0),
        edge("name of 16", format!("H b\nQ {name}\n"), 0, 0),
        edge("name of 17", format!("H b\nQ {name}0\n"), 2, 4),
        edge("principal of 16", format!("H b\nQ S {name} b\n"), 0, 0),
        edge("principal of 17", format!("H b\nQ S {name}0 b\n"), 2, 4),
        edge("names of digits and hyphens", "H 0\nQ -\nQ P - --\n", 0, 0),
    ];
    let second_lines = [
        "\n",
        "H\n",
        "H \n",
        "Q b",
        "Q  b\n",
        "Q b \n",
        " Q b\n",
        "Q b\r\n",
        "Q\tb\n",
        "Qb\n",
        "q b\n",
        "W b c\n",
        "Q B\n",
        "Q b c\n",
        "Q + b\n",
        "Q + b c d\n",
        "Q > b\n",
        "Q S a\n",
        "Q S b\n",
        "Q P a\n",
        "Q S T b\n",
        "Q S S b\n",
        "Q P + b\n",
        "Q S a b c\n",
        "Q H\n",
        "Q \u{e9}\n",
        "Q a_b\n",
        "Q b\0\n",
        "Q +\n",
        "Q S\n",
        "Q TT\n",
        "Q T T\n",
        "QQ b\n",
        "H Q b\n",
        "Q b\n\n",
        "Q (b)\n",
        "\0",
        " ",
    ];
    for line in second_lines {
        let place = if line == "Q b\n\n" { 8 } else { 4 };
        edges.push(edge("second line", format!("H b\n{line}"), 2, place));
        edges.push(edge("and a third", format!("H b\n{line}\nQ c\n"), 2, place));
    }
    // With a line feed behind it and a line more, the rest is well formed.
    edges.retain(|edge| edge.file != b"H b\nQ b\nQ c\n");
    edges
}

/// Code 3.
pub fn edges_of_nodes() -> Vec<Edge> {
    let sum = |operators: usize| format!("H {}b\n", "+ b ".repeat(operators));
    let sum_of_1_023 = sum(511);
    vec![
        edge("1,024 lines", FACT.repeat(1_024), 0, 0),
        edge("1,025 lines", FACT.repeat(1_025), 3, 4_096),
        edge("1,023 nodes and one", format!("{sum_of_1_023}Q b\n"), 0, 0),
        edge(
            "1,023 nodes and two",
            format!("{sum_of_1_023}Q S a b\n"),
            3,
            sum_of_1_023.len(),
        ),
        edge("1,025 nodes in one line", sum(512), 3, 0),
        edge(
            "over in the middle of a line",
            FACT.repeat(10) + &sum(511) + &FACT.repeat(9),
            3,
            40,
        ),
        edge(
            "over at the end of a line",
            FACT.repeat(2) + &sum(511) + FACT,
            3,
            8,
        ),
        edge(
            "3 before an earlier 4",
            format!("H {}b\n{}", "P a ".repeat(5), FACT.repeat(1_020)),
            3,
            4 * 1_018 + 24,
        ),
        stray_behind("2 at the end before 3", 1_100, "H b \n"),
        stray_behind("2 behind node 1,025 in its line", 1_024, "H + b\n"),
    ]
}

/// Code 4.
pub fn edges_of_depth() -> Vec<Edge> {
    let four = "S a P a S a P a ";
    vec![
        edge("four of said", format!("Q {}b\n", "S a ".repeat(4)), 0, 0),
        edge(
            "five of put",
            format!("H b\nQ {}T\n", "P a ".repeat(5)),
            4,
            4,
        ),
        edge(
            "five in a hypothesis",
            format!("H b\nH {four}S a b\n"),
            4,
            4,
        ),
        edge("four over +", format!("H {four}+ b c\n"), 0, 0),
        edge(
            "four over + and one more on the right",
            format!("H {four}+ b S a c\n"),
            4,
            0,
        ),
        edge(
            "five in a condition",
            format!("H b\nH > {four}S a b c\n"),
            4,
            4,
        ),
        edge(
            "two over > over two",
            "H S a S a > S a S a b P a P a c\n",
            0,
            0,
        ),
        edge(
            "two over > over three",
            "Q S a S a > S a S a b P a P a S a c\n",
            4,
            0,
        ),
        edge(
            "siblings do not add up",
            format!("H + {four}b {four}c\n"),
            0,
            0,
        ),
        edge(
            "the first of two",
            format!("H b\nQ {four}P a b\nH {four}S a b\n"),
            4,
            4,
        ),
        edge(
            "2 behind 4",
            format!("H {four}S a b\nH  b\n"),
            2,
            four.len() + 8,
        ),
    ]
}

/// A line with 4,080 formulas to list: 255 bases under four times said.
fn line_of_4_080() -> String {
    let leaves: String = (0..127).map(|leaf| format!("+ x{leaf} ")).collect();
    format!("H S a S b S c S d {leaves}x127\n")
}

/// Code 5.
pub fn edges_of_list() -> Vec<Edge> {
    let line = line_of_4_080();
    let full = line.clone() + "Q S a S b S c S d y\n";
    let all_but_one = line.clone() + "Q S a S b S c y\nQ S a S b y\nQ S a y\nQ y\n";
    let at = full.len();
    vec![
        edge("4,096 listed", full.clone(), 0, 0),
        edge(
            "4,096 listed, then what is listed",
            full.clone() + "Q P a S b P c S d x5\nQ P a P b P c P d y\n",
            0,
            0,
        ),
        edge("4,097 listed", full.clone() + "Q z\n", 5, at),
        edge(
            "4,097 by a second base",
            full.clone() + "Q S a S b S c S d > x0 y\nQ z\n",
            5,
            at,
        ),
        edge(
            "4,097 by a weaker prefix",
            all_but_one.clone() + "Q S a z\nH c\n",
            5,
            all_but_one.len(),
        ),
        edge(
            "4,096 by a base's last",
            all_but_one.clone() + "Q P a z\n",
            0,
            0,
        ),
        edge(
            "4 behind 5",
            full.clone() + "Q z\nQ P a P a P a P a P a b\n",
            4,
            at + 4,
        ),
        edge("2 behind 5", full + "Q z\nQ b b\n", 2, at + 4),
    ]
}
