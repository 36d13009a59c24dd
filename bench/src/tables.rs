//! The tables of the benchmark. Each is made here, by fixed random numbers where it needs any.

pub struct Named {
    pub name: String,
    pub words: Vec<i32>,
}

/// A table in the making: aggregates and rules, counted.
#[derive(Default)]
struct Builder {
    atoms: i32,
    aggregates: Vec<Vec<i32>>,
    rules: Vec<Vec<i32>>,
}

impl Builder {
    fn new(atoms: i32) -> Builder {
        Builder { atoms, ..Builder::default() }
    }

    /// Adds an aggregate and gives its number.
    fn aggregate(&mut self, function: i32, comparison: i32, threshold: i32, elements: &[(i32, i32)]) -> i32 {
        let mut words = vec![function, comparison, threshold, elements.len() as i32];
        words.extend(elements.iter().flat_map(|&(value, atom)| [value, atom]));
        self.aggregates.push(words);
        self.aggregates.len() as i32
    }

    fn rule(&mut self, head: &[i32], positive: &[i32], negated: &[i32], literals: &[i32]) {
        let mut words = Vec::new();
        for list in [head, positive, negated, literals] {
            let mut list = list.to_vec();
            list.sort_by_key(|word| word.abs());
            list.dedup();
            words.push(list.len() as i32);
            words.extend(list);
        }
        self.rules.push(words);
    }

    fn table(self, name: &str) -> Named {
        let mut words = vec![self.atoms, self.aggregates.len() as i32];
        words.extend(self.aggregates.iter().flatten());
        words.push(self.rules.len() as i32);
        words.extend(self.rules.iter().flatten());
        Named { name: name.to_string(), words }
    }
}

/// Random numbers (xorshift).
struct Random(u64);

impl Random {
    fn below(&mut self, bound: i32) -> i32 {
        self.0 ^= self.0 << 13;
        self.0 ^= self.0 >> 7;
        self.0 ^= self.0 << 17;
        (self.0 % bound as u64) as i32
    }
}

/// `1 :- 2. 2 :- 3. ..`, the last a fact: every pass defines one atom.
fn chain() -> Named {
    let mut builder = Builder::new(256);
    for i in 1..256 {
        builder.rule(&[i], &[i + 1], &[], &[]);
    }
    builder.rule(&[256], &[], &[], &[]);
    builder.table("chain of 256, worst order")
}

/// The chain in 1,022 rules, near the limits: besides `p :- p + 1` three rules for each atom that need the next 14 to be true. Every pass defines one
/// atom, until `:- 1, 2` and `1 :- 2` meet: one propagation of 256 passes that ends in a conflict, and nothing else but judging.
fn long_propagation() -> Named {
    let mut builder = Builder::new(256);
    for i in 1..256 {
        builder.rule(&[i], &[i + 1], &[], &[]);
        let next: Vec<i32> = (i + 1..=256.min(i + 14)).collect();
        for _ in 0..3 {
            builder.rule(&[i], &next, &[], &[]);
        }
    }
    builder.rule(&[256], &[], &[], &[]);
    builder.rule(&[], &[1, 2], &[], &[]);
    builder.table("one propagation, 256 passes")
}

/// The chain besides 64 aggregates of the 64 atoms that become true last, and 531 constraints with eight of them each, of which two are true only when
/// all atoms are: one propagation of 256 passes that ends in a conflict, and each pass values 4,248 aggregate literals of 64 elements.
fn long_propagation_of_aggregates() -> Named {
    let mut builder = Builder::new(256);
    let elements: Vec<(i32, i32)> = (1..=64).map(|p| (1, p)).collect();
    for j in 1..=64 {
        builder.aggregate(1, 1, if j < 63 { -1 } else { 63 }, &elements);
    }
    for i in 1..256 {
        builder.rule(&[i], &[i + 1], &[], &[]);
    }
    builder.rule(&[256], &[], &[], &[]);
    for i in 0..531 {
        let first = i % 57 + 1;
        builder.rule(&[], &[], &[], &[first, first + 1, first + 2, first + 3, first + 4, first + 5, 63, 64]);
    }
    builder.table("one propagation, 64 aggregates")
}

/// Each bird in one of the holes, no two in one: none, by search alone.
fn pigeons(birds: i32, holes: i32) -> Named {
    let mut builder = Builder::new(birds * holes);
    let at = |bird, hole| bird * holes + hole + 1;
    for bird in 0..birds {
        let head: Vec<i32> = (0..holes).map(|hole| at(bird, hole)).collect();
        builder.rule(&head, &[], &[], &[]);
    }
    for hole in 0..holes {
        for second in 0..birds {
            for first in 0..second {
                builder.rule(&[], &[at(first, hole), at(second, hole)], &[], &[]);
            }
        }
    }
    builder.table(&format!("{birds} pigeons, {holes} holes"))
}

/// A night's plan: each lane is done (odd atom) or rests (even atom); the weights of the lanes done stay within
/// the carts' load and reach the night's need; above a threshold a cart must charge, and some lanes cannot then
/// be done; some pairs of lanes are in each other's way; of each block of lanes some must be done.
fn night(lanes: i32, seed: u64) -> Named {
    let mut random = Random(seed);
    let mut builder = Builder::new(2 * lanes + 1);
    let charge = 2 * lanes + 1;
    let done = |lane: i32| 2 * lane + 1;
    let weights: Vec<(i32, i32)> = (0..lanes).map(|lane| (1 + random.below(50), done(lane))).collect();
    let whole: i32 = weights.iter().map(|&(weight, _)| weight).sum();
    let overload = builder.aggregate(1, 1, whole * 42 / 100, &weights);
    let too_little = builder.aggregate(1, 0, whole * 36 / 100, &weights);
    let must_charge = builder.aggregate(1, 1, whole * 32 / 100, &weights);
    for lane in 0..lanes {
        builder.rule(&[done(lane), done(lane) + 1], &[], &[], &[]);
    }
    builder.rule(&[charge], &[], &[], &[must_charge]);
    builder.rule(&[], &[], &[], &[overload]);
    builder.rule(&[], &[], &[], &[too_little]);
    for lane in 0..lanes {
        let other = lane + 1 + random.below(5);
        if other < lanes && random.below(4) > 0 {
            builder.rule(&[], &[done(lane), done(other)], &[], &[]);
        }
        if random.below(6) == 0 {
            builder.rule(&[], &[done(lane), charge], &[], &[]);
        }
    }
    for block in 0..lanes / 10 {
        let few: Vec<(i32, i32)> = (10 * block..10 * block + 10).map(|lane| (1, done(lane))).collect();
        let too_few = builder.aggregate(0, 0, 3, &few);
        builder.rule(&[], &[], &[], &[too_few]);
    }
    builder.table(&format!("night plan, {lanes} lanes"))
}

/// Nodes in a ring with chords, each of one colour, neighbours of two.
fn colouring(nodes: i32, colours: i32, chords: i32, seed: u64) -> Named {
    let mut random = Random(seed);
    let mut builder = Builder::new(nodes * colours);
    let at = |node, colour| node * colours + colour + 1;
    for node in 0..nodes {
        let head: Vec<i32> = (0..colours).map(|colour| at(node, colour)).collect();
        builder.rule(&head, &[], &[], &[]);
    }
    let mut edges: Vec<(i32, i32)> = (0..nodes).map(|node| (node, (node + 1) % nodes)).collect();
    while edges.len() < (nodes + chords) as usize {
        let (a, b) = (random.below(nodes), random.below(nodes));
        if a < b && !edges.contains(&(a, b)) && !edges.contains(&(b, a)) {
            edges.push((a, b));
        }
    }
    for (a, b) in edges {
        for colour in 0..colours {
            builder.rule(&[], &[at(a, colour), at(b, colour)], &[], &[]);
        }
    }
    builder.table(&format!("colouring, {nodes} nodes, {colours} colours"))
}

/// 256 atoms and 1,023 rules of 16 words: 64 pairs are guessed, the other atoms follow from lower ones.
fn full(seed: u64) -> Named {
    let mut random = Random(seed);
    let mut builder = Builder::new(256);
    for pair in 0..64 {
        builder.rule(&[2 * pair + 1], &[], &[2 * pair + 2], &[]);
        builder.rule(&[2 * pair + 2], &[], &[2 * pair + 1], &[]);
    }
    while builder.rules.len() < 1024 {
        let rest = 1024 - builder.rules.len() as i32;
        let p = 129 + (rest % 128);
        let positive = distinct(&mut random, p - 1, 6);
        let negated = distinct(&mut random, p - 1, 6);
        let is_constraint = rest % 16 == 0;
        builder.rule(if is_constraint { &[] } else { std::slice::from_ref(&p) }, &positive, &negated, &[]);
    }
    builder.table("1,024 rules, 256 atoms")
}

fn distinct(random: &mut Random, bound: i32, count: usize) -> Vec<i32> {
    let mut chosen = Vec::new();
    while chosen.len() < count {
        let atom = 1 + random.below(bound);
        if !chosen.contains(&atom) {
            chosen.push(atom);
        }
    }
    chosen
}

/// 64 aggregates of 64 elements each, over 64 guessed atoms; each decides an atom, and constraints follow.
fn aggregates(seed: u64) -> Named {
    let mut random = Random(seed);
    let mut builder = Builder::new(128);
    for pair in 0..32 {
        builder.rule(&[2 * pair + 1, 2 * pair + 2], &[], &[], &[]);
    }
    for j in 0..64 {
        let elements: Vec<(i32, i32)> = (1..=64).map(|atom| (random.below(1000), atom)).collect();
        let threshold = [31 + random.below(3), 15_000 + random.below(2000), random.below(60), 940 + random.below(60)];
        let number = builder.aggregate(j % 4, (j / 4) % 2, threshold[j as usize % 4], &elements);
        builder.rule(&[65 + j], &[], &[], &[if j % 3 == 0 { -number } else { number }]);
    }
    for _ in 0..24 {
        let (a, b) = (65 + random.below(64), 65 + random.below(64));
        builder.rule(&[], &[a, 1 + random.below(64)], &[b], &[]);
    }
    builder.table("64 aggregates of 64 elements")
}

/// One early pair and `late` later ones; three aggregates over an atom of each, settled by the early one; then two pairs that no two of the aggregates leave
/// a way for. Where all defined elements are blamed, every way to choose the late pairs is tried; where only what settles an aggregate is, none is.
pub fn early_and_late(late: i32) -> Named {
    let mut builder = Builder::new(2 * late + 6);
    let elements = |early, later| -> Vec<(i32, i32)> { (0..=late).map(|pair| (if pair == 0 { early } else { later }, 2 * pair + 1)).collect() };
    let sum = builder.aggregate(1, 1, 99, &elements(100, 1));
    let min = builder.aggregate(2, 0, 3, &elements(1, 5));
    let max = builder.aggregate(3, 1, 5, &elements(9, 1));
    for pair in 0..late + 3 {
        builder.rule(&[2 * pair + 1, 2 * pair + 2], &[], &[], &[]);
    }
    let (first, second) = (2 * late + 3, 2 * late + 5);
    for (i, j, literals) in [(0, 0, [sum, min]), (0, 1, [sum, max]), (1, 0, [min, max]), (1, 1, [sum, max])] {
        builder.rule(&[], &[first + i, second + j], &[], &literals);
    }
    builder.table(&format!("one early, {late} late pairs"))
}

pub fn all() -> Vec<Named> {
    vec![
        chain(),
        long_propagation(),
        long_propagation_of_aggregates(),
        pigeons(7, 6),
        pigeons(8, 7),
        night(40, 7),
        night(60, 4),
        colouring(30, 3, 40, 5),
        colouring(40, 3, 50, 4),
        colouring(50, 4, 140, 5),
        full(17),
        aggregates(10),
        early_and_late(12),
    ]
}

/// The same rules as `full`, with a second head atom each; the body's atoms are lower than both, or any.
fn full_wide(seed: u64, any: bool) -> Named {
    let mut random = Random(seed);
    let mut builder = Builder::new(256);
    while builder.rules.len() < 1024 {
        let p = 129 + (builder.rules.len() as i32 % 128);
        let top = if any { 256 } else { 128 };
        let positive = distinct(&mut random, top, 5);
        let negated = distinct(&mut random, 256, 4);
        builder.rule(&[p, 129 + random.below(128)], &positive, &negated, &[]);
    }
    builder.table(if any { "1,024 rules, heads of 2, cycles" } else { "1,024 rules, heads of 2" })
}

/// 800 rules with heads of 16 atoms, as many with one body atom as there is room for. `ring`: the lower half is one cycle.
fn heads_of_16(seed: u64, ring: bool) -> Named {
    let mut random = Random(seed);
    let mut builder = Builder::new(256);
    let rules = if ring { 700 } else { 800 };
    for i in 0..rules {
        let head: Vec<i32> = distinct(&mut random, 128, 16).iter().map(|atom| atom + 128).collect();
        let body = [1 + random.below(128)];
        builder.rule(&head, if i < 380 { &body } else { &[] }, &[], &[]);
    }
    if ring {
        for i in 1..=128 {
            builder.rule(&[i], &[i % 128 + 1], &[], &[]);
        }
    }
    builder.table(if ring { "heads of 16 in 700 rules, a ring" } else { "heads of 16 in 800 rules" })
}

/// One chain through all atoms but the last, or one cycle, in the order of `step`, and a head of two that is on it at one atom only.
fn through_all(step: i32, cycle: bool) -> Named {
    let mut builder = Builder::new(256);
    let at = |i: i32| i * step % 255 + 1;
    for i in 0..if cycle { 255 } else { 254 } {
        builder.rule(&[at(i)], &[at(i + 1)], &[], &[]);
    }
    builder.rule(&[at(0), 256], &[], &[], &[]);
    builder.table(&format!("{} of 255, step {step}", if cycle { "cycle" } else { "chain" }))
}

/// 255 atoms with arcs to 60 others each, and heads of two that are on the cycles at one atom only, or at both.
fn dense(seed: u64, refused: bool) -> Named {
    let mut random = Random(seed);
    let mut builder = Builder::new(256);
    for p in 0..240 {
        let head = 1 + p * 255 / 240;
        let positive = distinct(&mut random, 255, 60);
        builder.rule(&[head, 256], &positive, &[], &[]);
    }
    if refused {
        builder.rule(&[1, 2], &[], &[], &[]);
    }
    builder.table(if refused { "dense graph of 256, refused" } else { "dense graph of 256" })
}

/// 64 aggregates of 64 elements over the first 64 atoms, 8 in each of 500 rules; `rings`: positive atoms that make cycles besides.
fn aggregates_in_rules(seed: u64, rings: bool) -> Named {
    let mut random = Random(seed);
    let mut builder = Builder::new(256);
    for j in 0..64 {
        let elements: Vec<(i32, i32)> = (1..=64).map(|atom| (random.below(1000), atom)).collect();
        builder.aggregate(j % 4, j / 4 % 2, random.below(1000), &elements);
    }
    for i in 0..500 {
        let literals = distinct(&mut random, 64, 8);
        let body = [65 + (i + 1) % 192];
        builder.rule(&[65 + i % 192], if rings { &body } else { &[] }, &[], &literals);
    }
    builder.table(if rings { "64 aggregates in 500 rules, a ring" } else { "64 aggregates in 500 rules" })
}

/// The tables that are only judged.
pub fn judged() -> Vec<Named> {
    vec![
        full(17),
        full_wide(5, false),
        full_wide(5, true),
        heads_of_16(3, false),
        heads_of_16(3, true),
        chain(),
        through_all(1, false),
        through_all(254, false),
        through_all(101, false),
        through_all(1, true),
        through_all(254, true),
        through_all(101, true),
        dense(9, false),
        dense(9, true),
        aggregates(10),
        aggregates_in_rules(4, false),
        aggregates_in_rules(4, true),
    ]
}
