//! How a store is read: which word holds what, by the table of ../../docs/STORE.md. `Layout::of` holds its end against
//! `tillbonnet_need`, so a table that is out of date is found at the first job.

use tillbonnet::raw::tillbonnet_need;

/// The places of all rooms of a store.
#[derive(Clone, Copy, Debug, PartialEq, Eq)]
pub struct Layout {
    pub n: usize,
    /// Words of a plane.
    pub l: usize,
    pub sliced: bool,
    /// E.
    pub cap: usize,
    /// How many lists: 64 scalar, n sliced.
    pub lists: usize,
    /// B, blocks of 64 events.
    pub blocks: usize,
    pub frame: usize,
    pub sketch: usize,
    pub numbers: usize,
    pub heads: usize,
    pub links: usize,
    pub labels: usize,
    pub tags: usize,
    pub sigs: usize,
    pub axes: usize,
    pub live: usize,
    pub counts: usize,
    pub entries: usize,
    /// Words of one list.
    pub size: usize,
    /// The need.
    pub end: usize,
}

impl Layout {
    /// The places in a store that can be opened.
    pub fn of(n: usize, cap: usize, sliced: bool) -> Self {
        let at = Self::places(n, cap, sliced);
        assert_eq!(at.end, tillbonnet_need(n, cap, sliced as u64), "docs/STORE.md and tillbonnet_need agree");
        at
    }

    /// The places by the table alone, for n up to 23,168 and E up to 2^24.
    pub fn places(n: usize, cap: usize, sliced: bool) -> Self {
        let (l, blocks) = (n.div_ceil(64), cap.div_ceil(64));
        let lists = if sliced { n } else { 64 };
        let frame = 14;
        let sketch = frame + n * 2 * (2 * l + 1);
        let numbers = sketch + 4 * n;
        let heads = numbers + 2;
        let links = heads + cap;
        let labels = links + cap;
        let tags = labels + 2 * cap;
        let sigs = tags + cap;
        let axes = sigs + cap;
        let live = axes + 2 * l * cap;
        let counts = live + blocks;
        let entries = counts + 2 * lists;
        let size = if sliced { cap + (2 * n + 1) * blocks } else { cap };
        let end = entries + lists * size;
        Self {
            n, l, sliced, cap, lists, blocks, frame, sketch, numbers, heads, links, labels, tags, sigs, axes, live, counts, entries,
            size, end,
        }
    }

    /// Row x[q] (plane 0) or z[q] (plane 1): its phase, l words of X, l words of Z.
    pub fn row(&self, plane: usize, q: usize) -> usize {
        self.frame + (2 * q + plane) * (2 * self.l + 1)
    }

    /// The label of that row: high word, low word.
    pub fn row_label(&self, plane: usize, q: usize) -> usize {
        self.sketch + 2 * (2 * q + plane)
    }

    pub fn axis(&self, id: usize) -> usize {
        self.axes + 2 * self.l * id
    }

    /// The length of a list; its dead count is the word behind.
    pub fn count(&self, list: usize) -> usize {
        self.counts + 2 * list
    }

    pub fn entry(&self, list: usize, k: usize) -> usize {
        self.entries + list * self.size + k
    }

    /// The X mask of qubit 0 of a block; Z follows X, and qubit p + 1 follows qubit p.
    pub fn masks(&self, list: usize, block: usize) -> usize {
        self.entry(list, self.cap) + 2 * self.n * block
    }

    pub fn live_word(&self, list: usize, block: usize) -> usize {
        self.entry(list, self.cap) + 2 * self.n * self.blocks + block
    }

    /// The bucket of a label: its low word's lower half times E, divided by 2^32.
    pub fn bucket(&self, label: u128) -> usize {
        (((label as u64 & 0xffff_ffff) * self.cap as u64) >> 32) as usize
    }

    /// What stands in a word, in words.
    pub fn name(&self, at: usize) -> String {
        let (l, w) = (self.l, 2 * self.l + 1);
        let half = |k: usize| ["high", "low"][k % 2];
        match at {
            _ if at < self.frame => format!("word {at} of the header"),
            _ if at < self.sketch => {
                let (row, k) = ((at - self.frame) / w, (at - self.frame) % w);
                let name = format!("{}[{}]", ["x", "z"][row % 2], row / 2);
                match k {
                    0 => format!("phase of {name}"),
                    k if k <= l => format!("X word {} of {name}", k - 1),
                    k => format!("Z word {} of {name}", k - 1 - l),
                }
            }
            _ if at < self.numbers => {
                let k = at - self.sketch;
                format!("{} word of the label of {}[{}]", half(k), ["x", "z"][k / 2 % 2], k / 4)
            }
            _ if at == self.numbers => "events recorded".into(),
            _ if at < self.heads => "events at the last clear".into(),
            _ if at < self.links => format!("head of bucket {}", at - self.heads),
            _ if at < self.labels => format!("link of event {}", at - self.links),
            _ if at < self.tags => format!("{} label word of event {}", half(at - self.labels), (at - self.labels) / 2),
            _ if at < self.sigs => format!("tag and sign of event {}", at - self.tags),
            _ if at < self.axes => format!("signature of event {}", at - self.sigs),
            _ if at < self.live => format!("axis word {} of event {}", (at - self.axes) % (2 * l), (at - self.axes) / (2 * l)),
            _ if at < self.counts => format!("live word {}", at - self.live),
            _ if at < self.entries => {
                format!("{} of list {}", ["length", "dead count"][(at - self.counts) % 2], (at - self.counts) / 2)
            }
            _ if at < self.end => self.name_in_list((at - self.entries) / self.size, (at - self.entries) % self.size),
            _ => format!("word {} past the need", at - self.end),
        }
    }

    fn name_in_list(&self, list: usize, k: usize) -> String {
        let masks = 2 * self.n * self.blocks;
        if k < self.cap {
            format!("entry {k} of list {list}")
        } else if k < self.cap + masks {
            let k = k - self.cap;
            let (block, mask) = (k / (2 * self.n), k % (2 * self.n));
            format!("{} mask of qubit {} in block {block} of list {list}", ["X", "Z"][mask % 2], mask / 2)
        } else {
            format!("live word of block {} of list {list}", k - self.cap - masks)
        }
    }
}

/// The live rotations with this label that were recorded since the last clear, newest first: the walk of a look over our words.
/// It ends because it asks that the numbers fall; `Err` names the cell where they do not, or where a number is no event's.
pub fn chain(words: &[u64], at: &Layout, label: u128) -> Result<Vec<usize>, usize> {
    let (events, cleared) = (words[at.numbers], words[at.numbers + 1]);
    let mut cell = at.heads + at.bucket(label);
    let mut last = events + 1;
    let mut ids = Vec::new();
    while words[cell] != 0 {
        if words[cell] >= last {
            return Err(cell);
        }
        last = words[cell];
        let id = last as usize - 1;
        let kept = (words[at.labels + 2 * id] as u128) << 64 | words[at.labels + 2 * id + 1] as u128;
        if kept == label && last > cleared {
            ids.push(id);
        }
        cell = at.links + id;
    }
    Ok(ids)
}

/// The sign of a row by 01's rule, from its phase and the qubits that are in both sets; `None` for 1 and 3.
pub fn sign(row: &[u64]) -> Option<i8> {
    let l = row.len() / 2;
    let both: u32 = (0..l).map(|i| (row[1 + i] & row[1 + l + i]).count_ones()).sum();
    match (row[0] + 3 * both as u64) % 4 {
        0 => Some(1),
        2 => Some(-1),
        _ => None,
    }
}
