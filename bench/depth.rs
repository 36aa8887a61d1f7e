//! How long ways become in a tree of one thread, where keys come in some order, by a model of puts, deletes and lifts: no words and no locks.
//! `depth KEYS..` prints, for each order and rule, `ORDER,KEYS,RULE,SLOTS,LONGEST,TURNS,WAITS`: over how many slots a way leads on average
//! and at most in the end, and how many turns and waits for all readers there were for each 1,000 puts.

const SALT: u64 = 0x9e37_79b9_7f4a_7c15;

/// How many retired slots a place may hold back.
const ROOM: u64 = 64;

/// How a lift behind a put is made.
#[derive(Clone, Copy)]
struct Rule {
    name: &'static str,
    /// Whether a way is deep by the slots that aren't free, and not by all.
    by_pairs: bool,
    attempts: u32,
    /// Whether it stands still for readers once so many quarters of the way would be deep.
    quarters: u64,
}

const RULES: [Rule; 2] = [
    Rule { name: "four attempts", by_pairs: false, attempts: 4, quarters: 2 },
    Rule { name: "24 attempts", by_pairs: true, attempts: 24, quarters: 3 },
];

#[derive(Clone, Copy, Default)]
struct Node {
    key: u64,
    children: [usize; 2],
}

/// Node 0 is the root, whose right child leads to the keys.
struct Tree {
    rule: Rule,
    slots: u64,
    nodes: Vec<Node>,
    free: Vec<usize>,
    retired: u64,
    puts: u64,
    turns: u64,
    waits: u64,
}

fn mix(number: u64) -> u64 {
    let first = (number ^ (number >> 30)).wrapping_mul(0xbf58_476d_1ce4_e5b9);
    let second = (first ^ (first >> 27)).wrapping_mul(0x94d0_49bb_1331_11eb);
    second ^ (second >> 31)
}

fn rises_above(child: u64, node: u64) -> bool {
    mix(node ^ SALT) < mix(child ^ SALT)
}

fn most_depth(size: u64) -> u64 {
    2 * u64::from(u64::BITS - size.leading_zeros()) + 2
}

impl Tree {
    fn new(rule: Rule, slots: u64) -> Tree {
        let nodes = vec![Node::default()];
        Tree { rule, slots, nodes, free: Vec::new(), retired: 0, puts: 0, turns: 0, waits: 0 }
    }

    fn pairs(&self) -> u64 {
        (self.nodes.len() - 1 - self.free.len()) as u64
    }

    fn has_room(&self) -> bool {
        self.retired + 1 < ROOM
    }

    fn reclaim(&mut self) {
        self.waits += 1;
        self.retired = 0;
    }

    fn put(&mut self, key: u64) {
        let (mut parent, mut side, mut depth) = (0, 1, 0);
        while self.nodes[parent].children[side] != 0 {
            parent = self.nodes[parent].children[side];
            side = usize::from(self.nodes[parent].key < key);
            depth += 1;
        }
        let slot = self.free.pop().unwrap_or(self.nodes.len());
        if slot == self.nodes.len() {
            self.nodes.push(Node::default());
        }
        self.nodes[slot] = Node { key, children: [0, 0] };
        self.nodes[parent].children[side] = slot;
        self.puts += 1;
        let size = if self.rule.by_pairs { self.pairs() + self.retired } else { self.slots };
        let most = most_depth(size);
        if most < depth {
            let shorter = if self.rule.quarters == 2 { depth / 2 } else { depth - depth / 4 };
            self.lift(key, most < shorter);
        }
    }

    fn lift(&mut self, key: u64, hard: bool) {
        for _ in 0..self.rule.attempts {
            if !self.has_room() {
                if !hard {
                    return;
                }
                self.reclaim();
            }
            if !self.turn_topmost(key) {
                return;
            }
        }
    }

    /// Lets the topmost node on the way change places with its child there, if one rises.
    fn turn_topmost(&mut self, key: u64) -> bool {
        let (mut parent, mut side) = (0, 1);
        loop {
            let node = self.nodes[parent].children[side];
            let next = usize::from(self.nodes[node].key < key);
            let child = self.nodes[node].children[next];
            if self.nodes[node].key == key || child == 0 {
                return false;
            }
            if rises_above(self.nodes[child].key, self.nodes[node].key) {
                self.nodes[node].children[next] = self.nodes[child].children[1 - next];
                self.nodes[child].children[1 - next] = node;
                self.nodes[parent].children[side] = child;
                self.turns += 1;
                self.retired += 2;
                return true;
            }
            (parent, side) = (node, next);
        }
    }

    fn delete(&mut self, key: u64) {
        let (mut parent, mut side) = (0, 1);
        while self.nodes[self.nodes[parent].children[side]].key != key {
            parent = self.nodes[parent].children[side];
            side = usize::from(self.nodes[parent].key < key);
        }
        if !self.has_room() {
            self.reclaim();
        }
        let node = self.nodes[parent].children[side];
        let [left, right] = self.nodes[node].children;
        if left == 0 || right == 0 {
            self.nodes[parent].children[side] = left | right;
            self.free.push(node);
            self.retired += 1;
            return;
        }
        // The successor's copy takes the node's place.
        let (mut before, mut successor) = (node, right);
        while self.nodes[successor].children[0] != 0 {
            (before, successor) = (successor, self.nodes[successor].children[0]);
        }
        self.nodes[node].key = self.nodes[successor].key;
        self.nodes[before].children[usize::from(before == node)] = self.nodes[successor].children[1];
        self.free.push(successor);
        self.retired += 2;
    }

    fn root_key(&self) -> u64 {
        self.nodes[self.nodes[0].children[1]].key
    }

    /// Over how many slots ways lead: the sum of all, and the most.
    fn ways(&self) -> (u64, u64) {
        let (mut sum, mut longest) = (0, 0);
        let mut below = vec![(self.nodes[0].children[1], 1)];
        while let Some((node, depth)) = below.pop() {
            if node != 0 {
                sum += depth;
                longest = longest.max(depth);
                below.extend(self.nodes[node].children.map(|child| (child, depth + 1)));
            }
        }
        (sum, longest)
    }

    fn print(&self, order: &str) {
        let (sum, longest) = self.ways();
        let (pairs, puts) = (self.pairs(), self.puts as f64 / 1000.0);
        let average = sum as f64 / pairs as f64;
        let (turns, waits) = (self.turns as f64 / puts, self.waits as f64 / puts);
        println!("{order},{pairs},{},{average:.1},{longest},{turns:.1},{waits:.1}", self.rule.name);
    }
}

fn random(state: &mut u64) -> u64 {
    *state = state.wrapping_add(SALT);
    mix(*state)
}

fn shuffle<T>(items: &mut [T], state: &mut u64) {
    for i in (1..items.len()).rev() {
        items.swap(i, (random(state) % (i as u64 + 1)) as usize);
    }
}

fn blocks(keys: u64, length: usize) -> Vec<Vec<u64>> {
    let all: Vec<u64> = (0..keys).collect();
    all.chunks(length).map(<[u64]>::to_vec).collect()
}

fn descending_blocks(keys: u64, length: usize) -> Vec<u64> {
    blocks(keys, length).into_iter().rev().flatten().collect()
}

/// The keys in each order.
fn orders(keys: u64) -> Vec<(String, Vec<u64>)> {
    let mut state = 7;
    let ascending: Vec<u64> = (0..keys).collect();
    let descending = (0..keys).rev().collect();
    let outside_in = (0..keys).map(|i| if i % 2 == 0 { i / 2 } else { keys - 1 - i / 2 }).collect();
    let inside_out = (0..keys).map(|i| if i % 2 == 0 { (keys + i) / 2 } else { keys / 2 - 1 - i / 2 }).collect();
    let mut inside: Vec<Vec<u64>> = blocks(keys, 1000);
    inside.iter_mut().for_each(|block| shuffle(block, &mut state));
    let mut outside = blocks(keys, 1000);
    shuffle(&mut outside, &mut state);
    let bits = (keys - 1).leading_zeros();
    let reversed = (0..=u64::MAX >> bits).map(|i| i.reverse_bits() >> bits).filter(|&key| key < keys).collect();
    let mut mixed = ascending.clone();
    shuffle(&mut mixed, &mut state);
    let four = (0..keys).map(|i| i % 4 * keys + i / 4).collect();
    let halves = (0..keys).step_by(2).chain((1..keys).step_by(2)).collect();
    let mut orders = vec![
        ("ascending", ascending),
        ("descending", descending),
        ("outside in", outside_in),
        ("inside out", inside_out),
        ("blocks of 1000 in order and shuffled inside", inside.concat()),
        ("ascending blocks of 1000 shuffled", outside.concat()),
        ("bits reversed", reversed),
        ("in no order", mixed),
        ("four ascending in turn", four),
        ("each second and then the others", halves),
    ]
    .into_iter()
    .map(|(name, order)| (name.to_string(), order))
    .collect::<Vec<_>>();
    for length in [64, 256, 1024, 4096] {
        orders.push((format!("ascending blocks of {length} from the last on"), descending_blocks(keys, length)));
    }
    orders
}

fn print_deletes(rule: Rule, keys: u64) {
    let mut window = Tree::new(rule, keys / 4 + 68);
    for key in 0..keys {
        window.put(key);
        if key >= keys / 4 {
            window.delete(key - keys / 4);
        }
    }
    window.print("a sliding window");
    for is_ascending in [true, false] {
        let mut thinned = Tree::new(rule, keys + 68);
        (0..keys).for_each(|i| thinned.put(if is_ascending { i } else { keys - 1 - i }));
        (0..keys).filter(|key| key % 16 != 0).for_each(|key| thinned.delete(key));
        thinned.print(if is_ascending { "ascending and 15 of 16 deleted" } else { "descending and 15 of 16 deleted" });
    }
    let mut state = 7;
    let mut there: Vec<u64> = (0..10_000).map(|_| random(&mut state)).collect();
    let mut exchanged = Tree::new(rule, 10_068);
    there.iter().for_each(|&key| exchanged.put(key));
    for _ in 0..10 * keys {
        let i = (random(&mut state) % 10_000) as usize;
        exchanged.delete(there[i]);
        there[i] = random(&mut state);
        exchanged.put(there[i]);
    }
    exchanged.print("exchanged in no order");
    for is_greatest in [true, false] {
        let mut rootless = Tree::new(rule, keys / 8 + 68);
        (0..keys / 8).for_each(|key| rootless.put(key));
        for key in keys / 8..keys {
            rootless.delete(rootless.root_key());
            rootless.put(if is_greatest { key } else { u64::MAX / 2 - key });
        }
        rootless.print(if is_greatest { "root deleted and a greatest put" } else { "root deleted and a key below the last put" });
    }
}

fn main() {
    for keys in std::env::args().skip(1).map(|word| word.parse().expect("a number of keys")) {
        for (name, order) in orders(keys) {
            for rule in RULES {
                let mut tree = Tree::new(rule, keys + 68);
                order.iter().for_each(|&key| tree.put(key));
                tree.print(&name);
            }
        }
        for rule in RULES {
            print_deletes(rule, keys);
        }
    }
    for rule in RULES {
        let mut small = Tree::new(rule, 1 << 30);
        (0..1000).for_each(|key| small.put(key));
        small.print("ascending in an index for 2^30");
    }
}
