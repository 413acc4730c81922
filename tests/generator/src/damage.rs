//! Small random changes of a matrix, most of which make it a refused one.

use crate::random::Random;
use reference::Matrix;

/// One change by chance. Some kinds may leave the matrix accepted.
pub fn change(h: &mut Matrix, random: &mut Random) {
    let rho = usize::from(h.rho);
    let fits = rho >= 2 && h.list.len() == usize::from(h.m) * rho && h.m >= 2;
    match random.below(if fits { 16 } else { 4 }) {
        0 => size(h, random),
        1 => length(h, random),
        2 => entry(h, random),
        3 => exchange_entries(h, random),
        4 => neighbours(h, random),
        5 | 6 => other_column(h, random),
        7 => same_rows(h, random),
        8 => exchange_rows(h, random),
        _ => exchange_columns(h, random),
    }
}

/// One of the four sizes changed.
fn size(h: &mut Matrix, random: &mut Random) {
    let to = *random.pick(&[0, 1, 2, 3, 32, 33, 1023, 1024, 65535]);
    let size = match random.below(4) {
        0 => &mut h.n,
        1 => &mut h.m,
        2 => &mut h.rho,
        _ => &mut h.gamma,
    };
    *size = match random.below(3) {
        0 => size.wrapping_add(1),
        1 => size.wrapping_sub(1),
        _ => to,
    };
}

/// An entry more or fewer.
fn length(h: &mut Matrix, random: &mut Random) {
    if random.once_in(2) {
        h.list.pop();
    } else {
        h.list.push(random.number() as u16);
    }
}

/// One entry overwritten.
fn entry(h: &mut Matrix, random: &mut Random) {
    if h.list.is_empty() {
        return;
    }
    let at = random.below(h.list.len());
    let near = random.below(usize::from(h.n).max(1)) as u16;
    h.list[at] = *random.pick(&[
        0,
        near,
        h.n.wrapping_sub(1),
        h.n,
        h.n.wrapping_add(1),
        65535,
    ]);
}

/// Two entries anywhere exchanged.
fn exchange_entries(h: &mut Matrix, random: &mut Random) {
    if !h.list.is_empty() {
        let (a, b) = (random.below(h.list.len()), random.below(h.list.len()));
        h.list.swap(a, b);
    }
}

/// Two neighbours of a row exchanged or made equal.
fn neighbours(h: &mut Matrix, random: &mut Random) {
    let rho = usize::from(h.rho);
    let at = random.below(usize::from(h.m)) * rho + random.below(rho - 1);
    if random.once_in(2) {
        h.list.swap(at, at + 1);
    } else {
        h.list[at] = h.list[at + 1];
    }
}

/// A row's columns in ascending order again.
fn sort_row(h: &mut Matrix, i: usize) {
    let rho = usize::from(h.rho);
    h.list[i * rho..(i + 1) * rho].sort_unstable();
}

/// A one moved to another column of its row: two weights are wrong.
fn other_column(h: &mut Matrix, random: &mut Random) {
    let rho = usize::from(h.rho);
    let i = random.below(usize::from(h.m));
    let column = random.below(usize::from(h.n).max(1)) as u16;
    if !h.list[i * rho..(i + 1) * rho].contains(&column) {
        h.list[i * rho + random.below(rho)] = column;
        sort_row(h, i);
    }
}

/// A row made equal to another.
fn same_rows(h: &mut Matrix, random: &mut Random) {
    let rho = usize::from(h.rho);
    let (i, k) = (
        random.below(usize::from(h.m)),
        random.below(usize::from(h.m)),
    );
    h.list.copy_within(i * rho..(i + 1) * rho, k * rho);
}

/// Two rows exchanged, which keeps an accepted matrix accepted.
fn exchange_rows(h: &mut Matrix, random: &mut Random) {
    let rho = usize::from(h.rho);
    let (i, k) = (
        random.below(usize::from(h.m)),
        random.below(usize::from(h.m)),
    );
    for at in 0..rho {
        h.list.swap(i * rho + at, k * rho + at);
    }
}

/// Two rows exchange a column each: weights stay, overlaps may come.
pub fn exchange_columns(h: &mut Matrix, random: &mut Random) {
    let rho = usize::from(h.rho);
    let (i, k) = (
        random.below(usize::from(h.m)),
        random.below(usize::from(h.m)),
    );
    let (x, y) = (i * rho + random.below(rho), k * rho + random.below(rho));
    let (row_i, row_k) = (i * rho..(i + 1) * rho, k * rho..(k + 1) * rho);
    if h.list[row_k].contains(&h.list[x]) || h.list[row_i].contains(&h.list[y]) {
        return;
    }
    h.list.swap(x, y);
    sort_row(h, i);
    sort_row(h, k);
}
