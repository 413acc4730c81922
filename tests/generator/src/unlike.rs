//! Accepted parity-check matrices with columns of unlike weight: irregular codes.

use crate::codes::{self, Code};
use crate::random::Random;

/// Code U of the reference's tests, n = 9: column 0 weighs 4, column 1 weighs 3, the others 2.
pub fn code_u() -> Code {
    let rows = [
        [0, 1, 2],
        [0, 3, 4],
        [0, 5, 6],
        [0, 7, 8],
        [1, 3, 5],
        [2, 4, 7],
        [1, 6, 8],
    ];
    Code::from_rows("code U", 9, &rows.map(|row| row.to_vec()))
}

/// Rows that all have column 0, and no other in common: column 0 weighs as much as there are rows,
/// each other column 1.
pub fn star(rows: usize, rho: usize) -> Code {
    let others = rho - 1;
    let row = |i: usize| [0].into_iter().chain(1 + i * others..1 + (i + 1) * others);
    let all: Vec<Vec<usize>> = (0..rows).map(|i| row(i).collect()).collect();
    Code::from_rows(format!("star of {rows} × {rho}"), 1 + rows * others, &all)
}

/// The edges of a wheel: column 0, the hub, weighs as much as there are spokes, each other one 3.
pub fn wheel(spokes: usize) -> Code {
    let to_hub = (1..=spokes).map(|j| vec![0, j]);
    let rim = (1..=spokes).map(|j| vec![j, 1 + j % spokes]);
    let rows: Vec<Vec<usize>> = to_hub.chain(rim).collect();
    Code::from_rows(format!("wheel of {spokes}"), 1 + spokes, &rows)
}

/// The code without some of its checks: their columns weigh less.
pub fn without_rows(code: &Code, gone: &[usize]) -> Code {
    let mut rows = code.rows();
    let mut gone = gone.to_vec();
    gone.sort_unstable();
    for &i in gone.iter().rev() {
        rows.remove(i);
    }
    let name = format!("{} without {} rows", code.name, gone.len());
    Code::from_rows(name, code.matrix.n.into(), &rows)
}

/// The code without so many checks, taken by chance.
pub fn without_some_rows(code: &Code, count: usize, seed: u64) -> Code {
    let gone = Random::new(seed).different(count, code.matrix.m.into());
    without_rows(code, &gone)
}

/// The code without so many checks of column 0, which then weighs the least.
pub fn without_rows_of_column_0(code: &Code, count: usize) -> Code {
    without_rows(code, &code.columns()[0][..count])
}

/// Rows that grow while columns are put into them.
struct Growing {
    rho: usize,
    rows: Vec<Vec<usize>>,
    columns: Vec<Vec<usize>>,
}

impl Growing {
    /// The rows into which column j may be put: not full, and without a column in common with any
    /// row that has j.
    fn open_to(&self, j: usize) -> Vec<usize> {
        let mut open: Vec<bool> = self.rows.iter().map(|row| row.len() < self.rho).collect();
        for &i in &self.columns[j] {
            open[i] = false;
            for &other in &self.rows[i] {
                self.columns[other].iter().for_each(|&k| open[k] = false);
            }
        }
        (0..open.len()).filter(|&i| open[i]).collect()
    }

    /// Column j into one of the shortest rows that are open to it, if there is one.
    fn put(&mut self, j: usize, random: &mut Random) -> Option<()> {
        let mut open = self.open_to(j);
        let shortest = open.iter().map(|&i| self.rows[i].len()).min()?;
        open.retain(|&i| self.rows[i].len() == shortest);
        let i = *random.pick(&open);
        self.rows[i].push(j);
        self.columns[j].push(i);
        Some(())
    }
}

/// Rows of equal weight by chance, with columns of the given weights, the heaviest first; none if
/// the last columns find no rows. Two rows have at most one column in common: no cycle of four.
fn grown(weights: &[usize], m: usize, random: &mut Random) -> Option<Vec<Vec<usize>>> {
    let mut growing = Growing {
        rho: weights.iter().sum::<usize>() / m,
        rows: vec![Vec::new(); m],
        columns: vec![Vec::new(); weights.len()],
    };
    for (j, &weight) in weights.iter().enumerate() {
        for _ in 0..weight {
            growing.put(j, random)?;
        }
    }
    Some(growing.rows)
}

/// An irregular code of m checks without cycles of four: so many columns of each weight, in an
/// order by chance. The ones must fill all rows equally.
pub fn irregular(name: &str, columns: &[(usize, usize)], m: usize, seed: u64) -> Code {
    let mut random = Random::new(seed);
    let mut columns = columns.to_vec();
    columns.sort_unstable_by_key(|&(_, weight)| std::cmp::Reverse(weight));
    let weights: Vec<usize> = columns
        .iter()
        .flat_map(|&(count, weight)| vec![weight; count])
        .collect();
    assert_eq!(weights.iter().sum::<usize>() % m, 0, "{name}: rho");
    let rows = (0..100)
        .find_map(|_| grown(&weights, m, &mut random))
        .expect("the columns find rows in one of many tries");
    let code = Code::from_rows(name, weights.len(), &rows).shuffled(&mut random);
    Code {
        name: name.into(),
        ..code
    }
}

/// Whether one of the rows has two columns or more in common with this one.
fn overlaps(rows: &[Vec<usize>], row: &[usize]) -> bool {
    rows.iter()
        .any(|other| row.iter().filter(|j| other.contains(j)).count() >= 2)
}

/// So many different columns below n, low ones more often.
fn uneven(count: usize, n: usize, random: &mut Random) -> Vec<usize> {
    let mut columns = Vec::new();
    while columns.len() < count {
        let j = random.below(n).min(random.below(n));
        if !columns.contains(&j) {
            columns.push(j);
        }
    }
    columns
}

/// The code of these rows, on the columns that they have.
fn on_own_columns(rows: &[Vec<usize>]) -> Code {
    let mut used: Vec<usize> = rows.concat();
    used.sort_unstable();
    used.dedup();
    let place = |j: &usize| used.binary_search(j).expect("a column of the rows");
    let renumbered: Vec<Vec<usize>> = rows
        .iter()
        .map(|row| row.iter().map(place).collect())
        .collect();
    Code::from_rows("by chance", used.len(), &renumbered)
}

/// Rows by chance, in any order.
fn some_rows(random: &mut Random) -> Code {
    let rho = 2 + random.below(4);
    let n = rho + 1 + random.below(20);
    let mut rows: Vec<Vec<usize>> = Vec::new();
    for _ in 0..2 + random.below(3 * n) {
        let row = uneven(rho, n, random);
        if !overlaps(&rows, &row) {
            rows.push(row);
        }
    }
    on_own_columns(&rows)
}

/// A regular code without some of its rows.
fn some_rows_of_a_regular_code(random: &mut Random) -> Code {
    let regular = [
        codes::code_a,
        || codes::euclidean(2),
        || codes::projective(2),
        || codes::projective_prime(3),
        || codes::euclidean_prime(5),
        || codes::array_code(5, 4, 4),
        || codes::complete_graph(7).transposed(),
    ];
    let code = random.pick(&regular)();
    let gone = 1 + random.below(4);
    without_some_rows(&code, gone, random.number())
}

/// A small accepted matrix by chance, its columns of unlike weight.
pub fn some(random: &mut Random) -> Code {
    loop {
        let code = match random.below(2) {
            0 => some_rows(random),
            _ => some_rows_of_a_regular_code(random),
        };
        if code.matrix.gamma > 0 && !code.is_regular() {
            return code.shuffled(random);
        }
    }
}

/// Codes of at most 24 bits.
pub fn small() -> Vec<Code> {
    vec![
        code_u(),
        star(2, 2),
        star(2, 3),
        star(3, 4),
        star(7, 4),
        wheel(4),
        wheel(5),
        wheel(7),
        wheel(16),
        without_rows(&codes::code_a(), &[0]),
        without_rows(&codes::code_b(), &[5]),
        without_rows(&codes::grid(4), &[2]),
        without_rows(&codes::projective_prime(3), &[12]),
        without_rows_of_column_0(&codes::projective_prime(3), 3),
        without_rows(&codes::euclidean(2), &[4]),
        without_rows(&codes::projective(2), &[20]),
        without_rows_of_column_0(&codes::projective(2), 2),
        without_rows_of_column_0(&codes::euclidean_prime(5), 4),
        irregular("irregular 24", &[(18, 2), (6, 4)], 20, 24),
    ]
}

/// Codes of 25 to 300 bits.
pub fn medium() -> Vec<Code> {
    vec![
        star(32, 2),
        star(31, 3),
        star(8, 32),
        wheel(31),
        wheel(32),
        without_some_rows(&codes::tanner155(), 9, 155),
        without_rows_of_column_0(&codes::projective_prime(5), 2),
        without_some_rows(&codes::projective(3), 7, 73),
        without_some_rows(&codes::euclidean(4), 20, 255),
        without_some_rows(&codes::complete_graph(33).transposed(), 20, 33),
        irregular("irregular 60", &[(40, 3), (20, 6)], 60, 60),
        irregular("irregular 252", &[(168, 3), (42, 6), (42, 12)], 210, 252),
    ]
}

/// Codes of more bits, most of them with a size at its limit or near it.
pub fn large() -> Vec<Code> {
    vec![
        irregular504(),
        irregular1000(),
        star(32, 32),
        star(32, 2).copies(31),
        without_some_rows(&codes::projective_prime(31), 40, 31),
        without_rows_of_column_0(&codes::eg1023(), 16),
    ]
}

/// Irregular504: n = 504, m = 252, rho 8, weights 3 and 6. The example's code.
pub fn irregular504() -> Code {
    irregular("Irregular504", &[(336, 3), (168, 6)], 252, 504)
}

/// Irregular1000: n = 1000, m = 500, rho 12, weights 4, 8 and 10.
pub fn irregular1000() -> Code {
    let columns = [(600, 4), (200, 8), (200, 10)];
    irregular("Irregular1000", &columns, 500, 1000)
}
