//! Accepted parity-check matrices of many kinds. Those of unlike columns are in [`crate::unlike`].

use crate::random::Random;
use crate::unlike;
use reference::Matrix;

/// A parity-check matrix with the name of its code.
#[derive(Clone, Debug)]
pub struct Code {
    pub name: String,
    pub matrix: Matrix,
}

impl Code {
    /// A code from its rows, each a list of different columns in any order. Its gamma is its
    /// smallest column weight.
    pub fn from_rows(name: impl Into<String>, n: usize, rows: &[Vec<usize>]) -> Code {
        let name = name.into();
        let (m, rho) = (rows.len(), rows[0].len());
        assert!(rows.iter().all(|row| row.len() == rho), "{name}: rho");
        let gamma = weights(n, rows).into_iter().min().unwrap_or(0);
        let mut list = Vec::with_capacity(m * rho);
        for row in rows {
            let mut row: Vec<u16> = row.iter().map(|&c| c as u16).collect();
            row.sort_unstable();
            list.extend(row);
        }
        let matrix = Matrix {
            n: n as u16,
            m: m as u16,
            rho: rho as u16,
            gamma: gamma as u16,
            list,
        };
        Code { name, matrix }
    }

    /// The columns of each row.
    pub fn rows(&self) -> Vec<Vec<usize>> {
        self.matrix
            .list
            .chunks(usize::from(self.matrix.rho))
            .map(|row| row.iter().map(|&c| usize::from(c)).collect())
            .collect()
    }

    /// The rows of each column.
    pub fn columns(&self) -> Vec<Vec<usize>> {
        let mut columns = vec![Vec::new(); usize::from(self.matrix.n)];
        for (i, row) in self.rows().into_iter().enumerate() {
            for j in row {
                columns[j].push(i);
            }
        }
        columns
    }

    /// The weight of each column.
    pub fn weights(&self) -> Vec<usize> {
        weights(self.matrix.n.into(), &self.rows())
    }

    /// Whether every column weighs gamma.
    pub fn is_regular(&self) -> bool {
        let gamma = usize::from(self.matrix.gamma);
        self.weights().iter().all(|&weight| weight == gamma)
    }

    /// The code of a regular matrix with rows and columns exchanged. If two columns shared two rows, these would share two columns.
    pub fn transposed(&self) -> Code {
        let name = format!("{} transposed", self.name);
        Code::from_rows(name, usize::from(self.matrix.m), &self.columns())
    }

    /// The code several times side by side, each time on columns and rows of its own.
    pub fn copies(&self, count: usize) -> Code {
        let n = usize::from(self.matrix.n);
        let rows: Vec<Vec<usize>> = (0..count)
            .flat_map(|copy| {
                self.rows()
                    .into_iter()
                    .map(move |row| row.iter().map(|j| copy * n + j).collect())
            })
            .collect();
        Code::from_rows(format!("{count} times {}", self.name), count * n, &rows)
    }

    /// Rows and columns in random order.
    pub fn shuffled(&self, random: &mut Random) -> Code {
        let n = usize::from(self.matrix.n);
        let order = random.different(n, n);
        let mut rows: Vec<Vec<usize>> = self
            .rows()
            .into_iter()
            .map(|row| row.into_iter().map(|j| order[j]).collect())
            .collect();
        random.shuffle(&mut rows);
        Code::from_rows(format!("{} shuffled", self.name), n, &rows)
    }
}

/// How many rows have each of n columns.
fn weights(n: usize, rows: &[Vec<usize>]) -> Vec<usize> {
    let mut weights = vec![0; n];
    rows.iter().flatten().for_each(|&j| weights[j] += 1);
    weights
}

/// Row i is the first row moved by i places around n columns.
pub fn circulant(name: impl Into<String>, n: usize, first: &[usize]) -> Code {
    let rows: Vec<Vec<usize>> = (0..n)
        .map(|i| first.iter().map(|c| (c + i) % n).collect())
        .collect();
    Code::from_rows(name, n, &rows)
}

/// Blocks of `size` × `size`: none is a block of zeros, a shift s has its ones at (r, r + s).
pub fn quasi_cyclic(name: impl Into<String>, size: usize, blocks: &[Vec<Option<usize>>]) -> Code {
    let mut rows = Vec::new();
    for block_row in blocks {
        for r in 0..size {
            let shifts = block_row.iter().enumerate();
            rows.push(
                shifts
                    .filter_map(|(k, shift)| shift.map(|s| k * size + (r + s) % size))
                    .collect(),
            );
        }
    }
    Code::from_rows(name, blocks[0].len() * size, &rows)
}

/// Code A of document 01, the Fano plane.
pub fn code_a() -> Code {
    circulant("code A", 7, &[0, 1, 3])
}

/// Code B of document 01, the rows and columns of a 3 × 3 grid.
pub fn code_b() -> Code {
    let rows = [
        [0, 1, 2],
        [3, 4, 5],
        [6, 7, 8],
        [0, 3, 6],
        [1, 4, 7],
        [2, 5, 8],
    ];
    Code::from_rows("code B", 9, &rows.map(|row| row.to_vec()))
}

/// The triangle of P10.
pub fn triangle() -> Code {
    let rows = [[0, 1], [1, 2], [0, 2]];
    Code::from_rows("P10", 3, &rows.map(|row| row.to_vec()))
}

/// One check over all of its bits: gamma 1.
pub fn single_row(rho: usize) -> Code {
    Code::from_rows(format!("one row of {rho}"), rho, &[(0..rho).collect()])
}

/// The edges of a cycle: rho 2, gamma 2.
pub fn cycle(n: usize) -> Code {
    circulant(format!("cycle of {n}"), n, &[0, 1])
}

/// The cycle code of the complete graph: a column for each edge, a row for each vertex.
pub fn complete_graph(vertices: usize) -> Code {
    let mut rows = vec![Vec::new(); vertices];
    let mut edge = 0;
    for a in 0..vertices {
        for b in a + 1..vertices {
            rows[a].push(edge);
            rows[b].push(edge);
            edge += 1;
        }
    }
    Code::from_rows(format!("complete graph {vertices}"), edge, &rows)
}

/// The cycle code of the complete bipartite graph: the rows and columns of a grid, gamma 2.
pub fn grid(side: usize) -> Code {
    let across = (0..side).map(|a| (0..side).map(|b| a * side + b).collect());
    let down = (0..side).map(|b| (0..side).map(|a| a * side + b).collect());
    let rows: Vec<Vec<usize>> = across.chain(down).collect();
    Code::from_rows(format!("grid {side} × {side}"), side * side, &rows)
}

/// The array code: gamma × rho circulants of size p, the one at (i, j) shifted by i × j.
///
/// Two rows share two columns only if p divides a product of two differences, one below gamma,
/// one below rho.
pub fn array_code(p: usize, gamma: usize, rho: usize) -> Code {
    let blocks: Vec<Vec<Option<usize>>> = (0..gamma)
        .map(|i| (0..rho).map(|j| Some(i * j % p)).collect())
        .collect();
    quasi_cyclic(format!("array {gamma} × {rho} of {p}"), p, &blocks)
}

/// The p × p array code with blocks of zeros on the diagonal: weights p - 1.
pub fn array_code_off_diagonal(p: usize) -> Code {
    let blocks: Vec<Vec<Option<usize>>> = (0..p)
        .map(|i| (0..p).map(|j| (i != j).then_some(i * j % p)).collect())
        .collect();
    quasi_cyclic(format!("array {p} × {p} off the diagonal"), p, &blocks)
}

/// QC961: n = m = 961, weights 30. Its size and weights are those of document 003's example 2, its
/// dimension is not: see [`qc961_721`].
pub fn qc961() -> Code {
    Code {
        name: "QC961".into(),
        ..array_code_off_diagonal(31)
    }
}

/// Tanner's code of length 155: m = 93, rho 5, gamma 3.
pub fn tanner155() -> Code {
    let shifts = [[1, 2, 4, 8, 16], [5, 10, 20, 9, 18], [25, 19, 7, 14, 28]];
    let blocks = shifts.map(|row| row.map(Some).to_vec());
    quasi_cyclic("Tanner155", 31, &blocks)
}

/// The powers of a primitive element of GF(2^degree), as polynomials in it.
fn powers(degree: usize) -> Vec<usize> {
    let primitive: usize = match degree {
        3 => 0b1011,
        4 => 0b1_0011,
        5 => 0b10_0101,
        6 => 0b100_0011,
        8 => 0b1_0001_1101,
        9 => 0b10_0001_0001,
        10 => 0b100_0000_1001,
        12 => 0b1_0000_0101_0011,
        _ => panic!("no primitive polynomial of degree {degree} at hand"),
    };
    let mut powers = vec![1];
    loop {
        let mut next = powers[powers.len() - 1] << 1;
        if next >> degree == 1 {
            next ^= primitive;
        }
        if next == 1 {
            assert_eq!(powers.len(), (1 << degree) - 1);
            return powers;
        }
        powers.push(next);
    }
}

/// The array over GF(q), q = 2^s: (q - 1) × (q - 1) circulants of size q - 1, the one at (i, j)
/// shifted by the logarithm of the sum of the i-th and j-th powers, with blocks of zeros on the
/// diagonal: weights q - 2.
///
/// A row less a row moved by any shift vanishes in at most one place, as α^i + α^j is a line in
/// α^j: so two rows share at most one column.
pub fn field_array(s: usize) -> Code {
    let powers = powers(s);
    let logarithm = |sum: usize| powers.iter().position(|&power| power == sum);
    let blocks: Vec<Vec<Option<usize>>> = powers
        .iter()
        .map(|a| powers.iter().map(|b| logarithm(a ^ b)).collect())
        .collect();
    quasi_cyclic(format!("array over GF({})", 1 << s), powers.len(), &blocks)
}

/// Document 003's example 2: the (961, 721) code, n = m = 961, weights 30.
pub fn qc961_721() -> Code {
    Code {
        name: "QC961 (961, 721)".into(),
        ..field_array(5)
    }
}

/// The trace from GF(q^terms) to GF(q) of the i-th power: the sum of its q^t-th powers.
fn trace(powers: &[usize], q: usize, terms: usize, i: usize) -> usize {
    let mut exponent = i;
    let mut sum = 0;
    for _ in 0..terms {
        sum ^= powers[exponent];
        exponent = exponent * q % powers.len();
    }
    sum
}

/// The lines of EG(2, q) off the origin, q = 2^s, points as powers of a primitive element:
/// n = m = q² - 1, weights q.
pub fn euclidean(s: usize) -> Code {
    let q = 1 << s;
    let powers = powers(2 * s);
    let n = powers.len();
    let line: Vec<usize> = (0..n).filter(|&i| trace(&powers, q, 2, i) == 1).collect();
    circulant(format!("EG(2, {q})"), n, &line)
}

/// EG1023: n = m = 1023, weights 32.
pub fn eg1023() -> Code {
    Code {
        name: "EG1023".into(),
        ..euclidean(5)
    }
}

/// The lines of EG(2, p) off the origin, p prime, points by coordinates.
pub fn euclidean_prime(p: usize) -> Code {
    let plane = || (1..p * p).map(|at| (at / p, at % p));
    let rows: Vec<Vec<usize>> = plane()
        .map(|(a, b)| {
            plane()
                .enumerate()
                .filter(|(_, (x, y))| (a * x + b * y) % p == 1)
                .map(|(j, _)| j)
                .collect()
        })
        .collect();
    Code::from_rows(format!("EG(2, {p})"), p * p - 1, &rows)
}

/// The lines of PG(2, q), q = 2^s, as a cyclic difference set: n = m = q² + q + 1, weights q + 1.
pub fn projective(s: usize) -> Code {
    let q = 1 << s;
    let powers = powers(3 * s);
    let n = q * q + q + 1;
    let line: Vec<usize> = (0..n).filter(|&i| trace(&powers, q, 3, i) == 0).collect();
    circulant(format!("PG(2, {q})"), n, &line)
}

/// The lines of PG(2, p), p prime, points by coordinates.
pub fn projective_prime(p: usize) -> Code {
    let mut points = vec![(0, 0, 1)];
    points.extend((0..p).map(|z| (0, 1, z)));
    points.extend((0..p * p).map(|at| (1, at / p, at % p)));
    let rows: Vec<Vec<usize>> = points
        .iter()
        .map(|(a, b, c)| {
            let on_line = |&(_, (x, y, z)): &(usize, &(usize, usize, usize))| {
                (a * x + b * y + c * z) % p == 0
            };
            points
                .iter()
                .enumerate()
                .filter(on_line)
                .map(|(j, _)| j)
                .collect()
        })
        .collect();
    Code::from_rows(format!("PG(2, {p})"), points.len(), &rows)
}

/// Codes of at most 24 bits.
pub fn small() -> Vec<Code> {
    let mut codes = vec![
        code_a(),
        code_b(),
        triangle(),
        single_row(2),
        single_row(3),
        single_row(7),
        single_row(8),
        single_row(9),
        single_row(16),
        single_row(17),
        single_row(2).copies(6),
        single_row(5).copies(4),
        cycle(4),
        cycle(8),
        cycle(10),
        cycle(16),
        cycle(23),
        grid(2),
        grid(4),
        complete_graph(4),
        complete_graph(5),
        complete_graph(6),
        complete_graph(4).transposed(),
        complete_graph(5).transposed(),
        complete_graph(7).transposed(),
        code_b().transposed(),
        code_a().copies(2),
        code_a().copies(3),
        array_code(3, 3, 3),
        array_code(3, 2, 3),
        array_code(5, 3, 4),
        array_code(5, 5, 2),
        array_code(7, 4, 3),
        euclidean_prime(3),
        euclidean(2),
        euclidean_prime(5),
        projective(1),
        projective_prime(3),
        projective(2),
    ];
    codes.extend(unlike::small());
    codes
}

/// Codes of 25 to 300 bits.
pub fn medium() -> Vec<Code> {
    let mut codes = vec![
        tanner155(),
        tanner155().transposed(),
        projective_prime(5),
        projective_prime(7),
        projective(3),
        projective_prime(11),
        projective_prime(13),
        projective(4),
        euclidean_prime(7),
        euclidean(3),
        euclidean_prime(11),
        euclidean_prime(13),
        euclidean(4),
        array_code(7, 4, 6),
        array_code(11, 5, 9),
        array_code(13, 13, 13),
        array_code(13, 3, 13),
        array_code(17, 16, 4),
        array_code_off_diagonal(11),
        single_row(32),
        single_row(32).copies(5),
        complete_graph(12),
        complete_graph(12).transposed(),
        complete_graph(33).transposed(),
        grid(9),
        grid(31).transposed(),
        euclidean(2).copies(9),
    ];
    codes.extend(unlike::medium());
    codes
}

/// Codes with a size at its limit or near it.
pub fn large() -> Vec<Code> {
    let mut codes = vec![
        eg1023(),
        qc961(),
        euclidean_prime(31),
        projective_prime(31),
        array_code(31, 31, 31),
        array_code(31, 6, 31),
        array_code(341, 3, 3),
        array_code(341, 3, 2),
        array_code(93, 11, 11),
        cycle(1023),
        complete_graph(33),
        grid(31),
        single_row(2).copies(511),
        single_row(3).copies(341),
        single_row(31).copies(33),
        single_row(32).copies(31),
        code_a().copies(146),
        euclidean(2).copies(68),
    ];
    codes.extend(unlike::large());
    codes
}

/// All of them.
pub fn all() -> Vec<Code> {
    [small(), medium(), large()].concat()
}
