//! A plain filter in linear time, written from docs/RULES.md alone; it shares nothing with the crates. Nothing is proved of it.
//! Number 6 is found by a bit for each pair of places, pieces by union-find, bridges by one depth-first search.

pub struct Counts {
    pub struck: u16,
    pub pinned: u16,
}

pub struct Refusal {
    pub number: u16,
    pub place: u16,
}

const CONTENTS: usize = 20;
const RECORD: usize = 5;
const STRUCK: u8 = 0;
const POSSIBLE: u8 = 1;
const FIXED: u8 = 2;

struct Run {
    u: usize,
    v: usize,
    state: u8,
}

struct Form {
    supplies: Vec<bool>,
    runs: Vec<Run>,
    low: usize,
    high: usize,
}

fn refuse<T>(number: u16, place: usize) -> Result<T, Refusal> {
    Err(Refusal { number, place: place as u16 })
}

fn word(bytes: &[u8], at: usize) -> usize {
    u16::from_le_bytes([bytes[at], bytes[at + 1]]) as usize
}

/// Numbers 1 to 7.
fn read(image: &[u8]) -> Result<Form, Refusal> {
    if image.len() < CONTENTS {
        return refuse(1, 0);
    }
    let entry = |at: usize| [word(image, at), word(image, at + 2), word(image, at + 4)];
    let [places, runs, line] = [entry(2), entry(8), entry(14)];
    if word(image, 0) != 3 || [places[0], runs[0], line[0]] != [1, 2, 3] || line[2] != 1 {
        return refuse(1, 0);
    }
    let (n, m) = (places[2], runs[2]);
    if n == 0 || n > 256 || m > 1024 {
        return refuse(2, 0);
    }
    let runs_at = CONTENTS + n;
    let line_at = runs_at + RECORD * m;
    if [places[1], runs[1], line[1]] != [CONTENTS, runs_at, line_at] || image.len() != line_at + 4 {
        return refuse(3, 0);
    }
    let supplies = &image[CONTENTS..runs_at];
    if let Some(place) = supplies.iter().position(|&supply| supply > 1) {
        return refuse(4, place);
    }
    let runs: Vec<Run> = image[runs_at..line_at]
        .chunks_exact(RECORD)
        .map(|record| Run { u: word(record, 0), v: word(record, 2), state: record[4] })
        .collect();
    if let Some(run) = runs.iter().position(|run| run.u >= run.v || run.v >= n || run.state > FIXED) {
        return refuse(5, run);
    }
    let mut listed = vec![0u64; (n * n + 63) / 64];
    for (number, run) in runs.iter().enumerate() {
        let pair = run.u * n + run.v;
        if listed[pair / 64] >> (pair % 64) & 1 == 1 {
            return refuse(6, number);
        }
        listed[pair / 64] |= 1 << (pair % 64);
    }
    let (low, high) = (word(image, line_at), word(image, line_at + 2));
    if low > high {
        return refuse(7, 0);
    }
    Ok(Form { supplies: supplies.iter().map(|&supply| supply == 1).collect(), runs, low, high })
}

/// Which places are joined; each piece has its smallest place as its name, and knows whether it holds a supply.
#[derive(Clone)]
struct Pieces {
    above: Vec<usize>,
    fed: Vec<bool>,
}

impl Pieces {
    fn new(supplies: &[bool]) -> Pieces {
        Pieces { above: (0..supplies.len()).collect(), fed: supplies.to_vec() }
    }

    fn find(&mut self, mut place: usize) -> usize {
        while self.above[place] != place {
            self.above[place] = self.above[self.above[place]];
            place = self.above[place];
        }
        place
    }

    /// Joins two pieces, given by their names.
    fn join(&mut self, a: usize, b: usize) {
        let (top, other) = (a.min(b), a.max(b));
        self.above[other] = top;
        self.fed[top] |= self.fed[other];
    }

    fn names(&self) -> impl Iterator<Item = usize> + '_ {
        (0..self.above.len()).filter(|&place| self.above[place] == place)
    }
}

#[derive(Clone, Copy, PartialEq)]
enum Bridge {
    No,
    OneSideFed,
    BothSidesFed,
}

/// For each run, whether the other unstruck runs leave its ends apart, and which sides then hold a supply.
fn bridges(form: &Form) -> Vec<Bridge> {
    let n = form.supplies.len();
    let mut start = vec![0; n + 1];
    for run in form.runs.iter().filter(|run| run.state != STRUCK) {
        start[run.u + 1] += 1;
        start[run.v + 1] += 1;
    }
    for place in 0..n {
        start[place + 1] += start[place];
    }
    let mut filled = start.clone();
    let mut ways = vec![(0, 0); start[n]]; // from each place: the other end, and the run
    for (number, run) in form.runs.iter().enumerate().filter(|(_, run)| run.state != STRUCK) {
        for (from, to) in [(run.u, run.v), (run.v, run.u)] {
            ways[filled[from]] = (to, number);
            filled[from] += 1;
        }
    }

    let mut next = start[..n].to_vec();
    let mut entered = vec![usize::MAX; n]; // when the search came to the place
    let mut back = vec![usize::MAX; n]; // the earliest place that it and those found from it lead back to
    let mut supplies: Vec<usize> = form.supplies.iter().map(|&supply| supply as usize).collect(); // of it and those found from it
    let mut found = vec![]; // bridges: the run, and the supplies on the far side
    let mut kinds = vec![Bridge::No; form.runs.len()];
    let mut time = 0;
    let mut path: Vec<(usize, usize)> = Vec::with_capacity(n); // places, and the run that led there
    for root in 0..n {
        if entered[root] != usize::MAX {
            continue;
        }
        entered[root] = time;
        back[root] = time;
        time += 1;
        path.push((root, usize::MAX));
        while let Some(&(place, by)) = path.last() {
            if next[place] < start[place + 1] {
                let (to, run) = ways[next[place]];
                next[place] += 1;
                if run == by {
                    continue;
                }
                if entered[to] == usize::MAX {
                    entered[to] = time;
                    back[to] = time;
                    time += 1;
                    path.push((to, run));
                } else {
                    back[place] = back[place].min(entered[to]);
                }
            } else {
                path.pop();
                if let Some(&(from, _)) = path.last() {
                    back[from] = back[from].min(back[place]);
                    supplies[from] += supplies[place];
                    if back[place] > entered[from] {
                        found.push((by, supplies[place]));
                    }
                }
            }
        }
        for (run, far) in found.drain(..) {
            let both = far > 0 && far < supplies[root];
            kinds[run] = if both { Bridge::BothSidesFed } else { Bridge::OneSideFed };
        }
    }
    kinds
}

/// Numbers 9 to 11; else the pieces of the fixed runs, and MIN and MAX.
fn judge(form: &Form) -> Result<(Pieces, usize, usize), Refusal> {
    let mut fixed = Pieces::new(&form.supplies);
    let mut unstruck = fixed.clone();
    for (number, run) in form.runs.iter().enumerate().filter(|(_, run)| run.state == FIXED) {
        let (a, b) = (fixed.find(run.u), fixed.find(run.v));
        if a == b {
            return refuse(9, number);
        }
        fixed.join(a, b);
    }
    for run in form.runs.iter().filter(|run| run.state != STRUCK) {
        let (a, b) = (unstruck.find(run.u), unstruck.find(run.v));
        if a != b {
            unstruck.join(a, b);
        }
    }
    if let Some(place) = unstruck.names().find(|&place| !unstruck.fed[place]) {
        return refuse(10, place);
    }
    let least = unstruck.names().count();
    let most = fixed.names().filter(|&place| fixed.fed[place]).count();
    if form.high < least || form.low > most {
        return refuse(11, 0);
    }
    Ok((fixed, least, most))
}

/// Confirms the form, or refuses it and leaves the buffers as they were.
pub fn filter(image: &[u8], out: &mut [u8], wiring: &mut [u8], segments: &mut [u16]) -> Result<Counts, Refusal> {
    let form = read(image)?;
    let (n, m) = (form.supplies.len(), form.runs.len());
    if out.len() < image.len() || wiring.len() < m || segments.len() < n {
        return refuse(8, 0);
    }
    let (mut fixed, least, most) = judge(&form)?;
    let (low, high) = (form.low.max(least), form.high.min(most));
    let kinds = bridges(&form);

    out[..image.len()].copy_from_slice(image);
    let line_at = image.len() - 4;
    out[line_at..line_at + 2].copy_from_slice(&(low as u16).to_le_bytes());
    out[line_at + 2..line_at + 4].copy_from_slice(&(high as u16).to_le_bytes());
    let mut counts = Counts { struck: 0, pinned: 0 };
    for (number, run) in form.runs.iter().enumerate().filter(|(_, run)| run.state == POSSIBLE) {
        let (a, b) = (fixed.find(run.u), fixed.find(run.v));
        let state = &mut out[CONTENTS + n + RECORD * number + 4];
        if a == b || low == most && fixed.fed[a] && fixed.fed[b] {
            *state = STRUCK;
            counts.struck += 1;
        } else if kinds[number] == Bridge::OneSideFed || kinds[number] == Bridge::BothSidesFed && high == least {
            *state = FIXED;
            counts.pinned += 1;
        }
    }

    // the first wiring, on from the fixed runs
    let mut pieces = fixed;
    let mut spare = most - high;
    for (used, run) in wiring.iter_mut().zip(&form.runs) {
        *used = (run.state == FIXED) as u8;
        if run.state != POSSIBLE {
            continue;
        }
        let (a, b) = (pieces.find(run.u), pieces.find(run.v));
        let both = pieces.fed[a] && pieces.fed[b];
        if a != b && (!both || spare > 0) {
            spare -= both as usize;
            pieces.join(a, b);
            *used = 1;
        }
    }
    for place in 0..n {
        segments[place] = pieces.find(place) as u16;
    }
    Ok(counts)
}
