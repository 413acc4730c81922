use crate::Refusal;

/// "It is lent as a list of m × ρ unsigned 16-bit column numbers, row after row."
///
/// Card 2 of document 02: "The γ in the call is now the smallest column weight". Nothing here is
/// known to hold: sizes and list are as the caller lends them.
#[derive(Clone, Debug, PartialEq, Eq)]
pub struct Matrix {
    pub n: u16,
    pub m: u16,
    pub rho: u16,
    pub gamma: u16,
    pub list: Vec<u16>,
}

impl Matrix {
    /// The columns of row `i`.
    fn row(&self, i: usize) -> &[u16] {
        let rho = usize::from(self.rho);
        &self.list[i * rho..(i + 1) * rho]
    }

    /// The numbers of the columns of row `i`, as indices into a word.
    pub(crate) fn columns(&self, i: usize) -> impl Iterator<Item = usize> + '_ {
        self.row(i).iter().map(|&c| usize::from(c))
    }

    /// Whether row `i` has a one in column `j`.
    fn has(&self, i: usize, j: usize) -> bool {
        self.columns(i).any(|c| c == j)
    }

    /// "its own checks": the checks of bit `j`, searched for in all rows.
    pub(crate) fn checks_of(&self, j: usize) -> Vec<usize> {
        (0..usize::from(self.m))
            .filter(|&i| self.has(i, j))
            .collect()
    }

    /// How many columns the rows `i` and `k` have in common.
    fn common(&self, i: usize, k: usize) -> usize {
        let other = self.row(k);
        self.row(i).iter().filter(|c| other.contains(c)).count()
    }
}

/// "1: a size out of range", and by card 2 "Refusal 1 now asks that m × ρ be no less than n × γ".
///
/// "Ranges: n 2 to 1,023; m 1 to 1,023; ρ 2 to 32; γ 1 to 32".
pub(crate) fn sizes_fit(h: &Matrix) -> bool {
    let ones_by_rows = u64::from(h.m) * u64::from(h.rho);
    let fewest_by_columns = u64::from(h.n) * u64::from(h.gamma);
    (2..=1023).contains(&h.n)
        && (1..=1023).contains(&h.m)
        && (2..=32).contains(&h.rho)
        && (1..=32).contains(&h.gamma)
        && ones_by_rows >= fewest_by_columns
}

/// "3: an entry not below n, or not above the one before it in its row."
fn entry_is_bad(h: &Matrix, index: usize) -> bool {
    let first_of_its_row = index % usize::from(h.rho) == 0;
    h.list[index] >= h.n || (!first_of_its_row && h.list[index] <= h.list[index - 1])
}

/// Card 2: "4 is given for a column outside γ to 32, else with place n when no column weighs γ."
///
/// "Place: lowest such column."
fn weights_fit(h: &Matrix) -> Result<(), Refusal> {
    let n = usize::from(h.n);
    let gamma = usize::from(h.gamma);
    let weights: Vec<usize> = (0..n).map(|j| h.checks_of(j).len()).collect();
    for (j, &weight) in weights.iter().enumerate() {
        if weight < gamma || weight > 32 {
            return Err(Refusal::at(4, j));
        }
    }
    if !weights.contains(&gamma) {
        return Err(Refusal::at(4, n));
    }
    Ok(())
}

/// The matrix check, refusals 1 to 5: "The lowest number that applies in a call is given."
///
/// "A matrix is accepted when none of the refusals 1 to 5 applies to it."
pub fn check(h: &Matrix) -> Result<(), Refusal> {
    if !sizes_fit(h) {
        return Err(Refusal::plain(1));
    }
    let m = usize::from(h.m);
    // "2: the list's length is not m × ρ."
    if h.list.len() != m * usize::from(h.rho) {
        return Err(Refusal::plain(2));
    }
    // "Place: first such index in the list."
    for index in 0..h.list.len() {
        if entry_is_bad(h, index) {
            return Err(Refusal::at(3, index));
        }
    }
    weights_fit(h)?;
    // "5: two rows share two columns or more. Place: the lower row of the first such pair,
    // ordered by lower row."
    for i in 0..m {
        for k in i + 1..m {
            if h.common(i, k) >= 2 {
                return Err(Refusal::at(5, i));
            }
        }
    }
    Ok(())
}
