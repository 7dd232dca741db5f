// The same exchanges and checks over f64: rows as sorted lists of their entries, lists of rows by variable, and values
// without infinitesimals. Beside the pivots and their checksum it writes how many entries were touched: those of each
// row that follows, and those of the solved row for each of them.
use std::env;
use std::mem;

const LIST: usize = 4096;

struct Generator {
    state: u64,
}

impl Generator {
    fn below(&mut self, limit: u32) -> u32 {
        self.state = self.state.wrapping_mul(6364136223846793005).wrapping_add(1442695040888963407);
        ((self.state >> 33) as u32).checked_rem(limit).unwrap_or(0)
    }
}

struct Tally {
    pivots: u64,
    sum: u64,
}

impl Tally {
    fn add(&mut self, basic: u32, other: u32) {
        self.pivots += 1;
        self.sum = self.sum.wrapping_mul(31).wrapping_add(u64::from(basic));
        self.sum = self.sum.wrapping_mul(31).wrapping_add(u64::from(other));
    }
}

#[derive(Clone, Copy)]
struct Entry {
    variable: u32,
    number: f64,
}

fn coefficient(row: &[Entry], variable: u32) -> f64 {
    match row.binary_search_by_key(&variable, |entry| entry.variable) {
        Ok(at) => row[at].number,
        Err(_) => 0.0,
    }
}

struct Tableau {
    basic: Vec<bool>,
    rows: Vec<Vec<Entry>>,
    users: Vec<Vec<u32>>,
    spare: Vec<Vec<Entry>>,
    touched: u64,
}

impl Tableau {
    fn new(columns: u32, forms: &[(u32, u32)]) -> Tableau {
        let variables = columns as usize + forms.len();
        let mut tableau = Tableau {
            basic: (0..variables).map(|v| v >= columns as usize).collect(),
            rows: vec![Vec::new(); variables],
            users: vec![Vec::new(); variables],
            spare: Vec::with_capacity(LIST),
            touched: 0,
        };
        for (j, (plus, minus)) in forms.iter().enumerate() {
            let variable = columns as usize + j;
            let mut row = vec![
                Entry { variable: *plus, number: 1.0 },
                Entry { variable: *minus, number: -1.0 },
            ];
            row.sort_by_key(|entry| entry.variable);
            for entry in &row {
                tableau.users[entry.variable as usize].push(variable as u32);
            }
            tableau.rows[variable] = row;
        }
        tableau
    }

    fn entry(&self, basic: u32, other: u32) -> f64 {
        coefficient(&self.rows[basic as usize], other)
    }

    fn pivot(&mut self, basic: u32, other: u32) {
        let mut solved = self.spare.pop().unwrap_or_default();
        solve(basic, &self.rows[basic as usize], other, &mut solved);
        let mut followed = Vec::new();
        for user in &self.users[other as usize] {
            let row = &self.rows[*user as usize];
            if *user == basic || coefficient(row, other) == 0.0 {
                continue;
            }
            let mut room = self.spare.pop().unwrap_or_default();
            self.touched += (row.len() + solved.len()) as u64;
            substitute(row, other, &solved, &mut room);
            followed.push((*user, room));
        }
        name(&mut self.users, &solved, other);
        for (user, _) in &followed {
            name(&mut self.users, &solved, *user);
        }
        self.basic[basic as usize] = false;
        self.basic[other as usize] = true;
        for (user, row) in followed {
            self.spare.push(mem::replace(&mut self.rows[user as usize], row));
        }
        self.spare.push(mem::take(&mut self.rows[basic as usize]));
        self.rows[other as usize] = solved;
        self.users[other as usize].clear();
    }
}

fn name(users: &mut [Vec<u32>], row: &[Entry], name: u32) {
    for entry in row {
        let list = &mut users[entry.variable as usize];
        if let Err(place) = list.binary_search(&name) {
            list.insert(place, name);
        }
    }
}

fn append(row: &mut Vec<Entry>, variable: u32, number: f64) {
    if number != 0.0 {
        row.push(Entry { variable, number });
    }
}

fn solve(basic: u32, row: &[Entry], variable: u32, solved: &mut Vec<Entry>) {
    let factor = 1.0 / coefficient(row, variable);
    solved.clear();
    let mut placed = false;
    for entry in row {
        if !placed && basic < entry.variable {
            append(solved, basic, factor);
            placed = true;
        }
        if entry.variable != variable {
            append(solved, entry.variable, -entry.number * factor);
        }
    }
    if !placed {
        append(solved, basic, factor);
    }
}

fn substitute(row: &[Entry], variable: u32, solved: &[Entry], followed: &mut Vec<Entry>) {
    let factor = coefficient(row, variable);
    followed.clear();
    let (mut i, mut j) = (0, 0);
    while i < row.len() || j < solved.len() {
        let left = row.get(i).map_or(u32::MAX, |entry| entry.variable);
        let right = solved.get(j).map_or(u32::MAX, |entry| entry.variable);
        if left == right {
            append(followed, left, row[i].number + factor * solved[j].number);
            (i, j) = (i + 1, j + 1);
        } else if left < right {
            if left != variable {
                append(followed, left, row[i].number);
            }
            i += 1;
        } else {
            append(followed, right, factor * solved[j].number);
            j += 1;
        }
    }
}

struct Simplex {
    tableau: Tableau,
    values: Vec<f64>,
    spare: Vec<f64>,
    lower: Vec<Option<f64>>,
    upper: Vec<Option<f64>>,
}

impl Simplex {
    fn set(&mut self, var: u32, upper: bool, at: f64) {
        let v = var as usize;
        let outside = if upper { at < self.values[v] } else { self.values[v] < at };
        if upper {
            self.upper[v] = Some(at);
        } else {
            self.lower[v] = Some(at);
        }
        if outside && !self.tableau.basic[v] {
            self.update(var, at);
        }
    }

    fn update(&mut self, var: u32, to: f64) {
        let change = to - self.values[var as usize];
        self.spare.clear();
        for v in 0..self.values.len() {
            let old = self.values[v];
            let value = if v == var as usize {
                to
            } else if self.tableau.basic[v] {
                old + self.tableau.entry(v as u32, var) * change
            } else {
                old
            };
            self.spare.push(value);
        }
        mem::swap(&mut self.values, &mut self.spare);
    }

    // The least violated basic variable, whether its upper bound is violated, and that bound.
    fn violated(&self) -> Option<(u32, bool, f64)> {
        for v in 0..self.values.len() {
            if !self.tableau.basic[v] {
                continue;
            }
            match (self.lower[v], self.upper[v]) {
                (Some(at), _) if self.values[v] < at => return Some((v as u32, false, at)),
                (_, Some(at)) if at < self.values[v] => return Some((v as u32, true, at)),
                _ => {}
            }
        }
        None
    }

    fn helper(&self, basic: u32, upper: bool) -> Option<u32> {
        for entry in &self.tableau.rows[basic as usize] {
            let v = entry.variable as usize;
            let helps = if (entry.number > 0.0) != upper {
                self.upper[v].map_or(true, |at| self.values[v] < at)
            } else {
                self.lower[v].map_or(true, |at| at < self.values[v])
            };
            if helps {
                return Some(entry.variable);
            }
        }
        None
    }

    fn check(&mut self, tally: &mut Tally) -> bool {
        while let Some((basic, upper, at)) = self.violated() {
            match self.helper(basic, upper) {
                Some(other) => {
                    tally.add(basic, other);
                    self.tableau.pivot(basic, other);
                    self.update(basic, at);
                }
                None => return false,
            }
        }
        true
    }
}

fn differences(columns: u32) -> Vec<(u32, u32)> {
    let mut generator = Generator { state: 1 };
    (0..columns)
        .map(|_| {
            let plus = generator.below(columns);
            (plus, generator.below(columns))
        })
        .filter(|(plus, minus)| plus != minus)
        .collect()
}

fn exchanges(tableau: &mut Tableau, turns: u64, tally: &mut Tally) {
    let mut generator = Generator { state: 2 };
    for _ in 0..turns {
        let basic = generator.below(tableau.rows.len() as u32);
        let row = &tableau.rows[basic as usize];
        let at = generator.below(row.len() as u32);
        if let Some(entry) = row.get(at as usize) {
            let other = entry.variable;
            tableau.pivot(basic, other);
            tally.add(basic, other);
        }
    }
}

fn level(round: u64, column: u32) -> f64 {
    let mixed = round
        .wrapping_mul(6364136223846793005)
        .wrapping_add(u64::from(column).wrapping_mul(1442695040888963407));
    ((mixed >> 40) % 97) as f64
}

fn checks(tableau: Tableau, columns: u32, forms: &[(u32, u32)], turns: u64, tally: &mut Tally) -> u64 {
    let variables = tableau.rows.len();
    let mut simplex = Simplex {
        tableau,
        values: vec![0.0; variables],
        spare: Vec::with_capacity(variables),
        lower: vec![None; variables],
        upper: vec![None; variables],
    };
    let count = forms.len() as u64;
    for turn in 0..turns {
        let at = turn % count;
        if at == 0 {
            simplex.lower.fill(None);
            simplex.upper.fill(None);
        }
        let (plus, minus) = forms[at as usize];
        let height = level(turn / count, plus) - level(turn / count, minus);
        let var = columns + at as u32;
        simplex.set(var, false, height);
        simplex.set(var, true, height + 3.0);
        if !simplex.check(tally) {
            break;
        }
    }
    simplex.tableau.touched
}

fn main() {
    let words: Vec<String> = env::args().collect();
    let columns: u32 = words[2].parse().unwrap();
    let turns: u64 = words[3].parse().unwrap();
    let forms = differences(columns);
    let mut tableau = Tableau::new(columns, &forms);
    let mut tally = Tally { pivots: 0, sum: 0 };
    let touched = if words[1] == "pivot" {
        exchanges(&mut tableau, turns, &mut tally);
        tableau.touched
    } else {
        checks(tableau, columns, &forms, turns, &mut tally)
    };
    println!("{} {} {touched}", tally.pivots, tally.sum);
}
