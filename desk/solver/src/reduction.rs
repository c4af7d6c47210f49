//! Reduction of a lattice's basis by whole numbers alone (the integral form of the algorithm of Lenstra, Lenstra and Lovász).

use crate::whole::{Whole, ONE, ZERO};

/// Vectors that span all columns, and the coordinates over them: the vectors' inverse.
pub struct Basis {
    vectors: Vec<Vec<Whole>>,
    coordinates: Vec<Vec<Whole>>,
}

/// Numbers of the orthogonal parts: determinants, d(0) = 1 first, and products lambda(i, j), j < i.
struct Measures {
    determinants: Vec<Whole>,
    products: Vec<Vec<Whole>>,
}

impl Basis {
    /// The unit vectors.
    pub fn new(columns: usize) -> Basis {
        let unit = |i: usize| (0..columns).map(|j| if i == j { ONE } else { ZERO }).collect();
        Basis { vectors: (0..columns).map(unit).collect(), coordinates: (0..columns).map(unit).collect() }
    }

    /// Takes a multiple of one vector off another; the coordinates follow.
    pub fn take_off(&mut self, vector: usize, other: usize, times: &Whole) {
        add(&mut self.vectors, vector, other, &-times);
        add(&mut self.coordinates, other, vector, times);
    }

    fn product(&self, one: usize, other: usize, weights: &[i64]) -> Whole {
        let entries = self.vectors[one].iter().zip(&self.vectors[other]).zip(weights);
        entries.fold(ZERO, |sum, ((a, b), weight)| &sum + &(&(a * b) * &Whole::from(weight * weight)))
    }

    /// Reduces the chosen vectors, by their order in the list; it stops after so many rounds, with what is then reached.
    pub fn reduce(&mut self, chosen: &mut [usize], weights: &[i64], most_rounds: usize) {
        let Some(mut measures) = self.measures(chosen, weights) else { return };
        let (mut k, mut rounds) = (1, 0);
        while k < chosen.len() && rounds < most_rounds {
            rounds += 1;
            self.shorten(chosen, &mut measures, k, k - 1);
            if measures.is_out_of_order(k) {
                chosen.swap(k, k - 1);
                measures.swap(k);
                k = (k - 1).max(1);
                continue;
            }
            for l in (0..k - 1).rev() {
                self.shorten(chosen, &mut measures, k, l);
            }
            k += 1;
        }
    }

    /// The determinants and products of the chosen vectors; none where these depend on each other.
    fn measures(&self, chosen: &[usize], weights: &[i64]) -> Option<Measures> {
        let count = chosen.len();
        let mut out = Measures { determinants: vec![ONE], products: vec![vec![ZERO; count]; count] };
        for k in 0..count {
            for j in 0..=k {
                let mut entry = self.product(chosen[k], chosen[j], weights);
                for i in 0..j {
                    let crossed = &out.products[k][i] * &out.products[j][i];
                    entry = (&(&out.determinants[i + 1] * &entry) - &crossed).over(&out.determinants[i]);
                }
                out.products[k][j] = entry;
            }
            if out.products[k][k].is_zero() {
                return None;
            }
            out.determinants.push(out.products[k][k].clone());
        }
        Some(out)
    }

    /// Takes vector l off vector k as often as makes it shortest.
    fn shorten(&mut self, chosen: &[usize], measures: &mut Measures, k: usize, l: usize) {
        let times = Whole::nearest(&measures.products[k][l], &measures.determinants[l + 1]);
        if times.is_zero() {
            return;
        }
        self.take_off(chosen[k], chosen[l], &times);
        measures.products[k][l] = &measures.products[k][l] - &(&times * &measures.determinants[l + 1]);
        for i in 0..l {
            measures.products[k][i] = &measures.products[k][i] - &(&times * &measures.products[l][i]);
        }
    }

    /// A coordinate made small by multiples of the fixed ones, which only shift its value.
    pub fn shortened(&self, coordinate: usize, fixed: &[usize]) -> Vec<Whole> {
        let dot = |a: &[Whole], b: &[Whole]| a.iter().zip(b).fold(ZERO, |sum, (a, b)| &sum + &(a * b));
        let mut out = self.coordinates[coordinate].clone();
        for other in fixed.iter().chain(fixed) {
            let other = &self.coordinates[*other];
            let times = Whole::nearest(&dot(&out, other), &dot(other, other));
            out = out.iter().zip(other).map(|(a, b)| a - &(&times * b)).collect();
        }
        out
    }
}

impl Measures {
    /// Whether vectors k and k − 1 should change places.
    fn is_out_of_order(&self, k: usize) -> bool {
        let (three, four) = (Whole::from(3i64), Whole::from(4i64));
        let lambda = &self.products[k][k - 1];
        let kept = &(&self.determinants[k + 1] * &self.determinants[k - 1]) + &(lambda * lambda);
        &kept * &four < &(&self.determinants[k] * &self.determinants[k]) * &three
    }

    /// The numbers after vectors k and k − 1 changed places.
    fn swap(&mut self, k: usize) {
        for j in 0..k - 1 {
            let kept = self.products[k][j].clone();
            self.products[k][j] = std::mem::replace(&mut self.products[k - 1][j], kept);
        }
        let lambda = self.products[k][k - 1].clone();
        let (before, middle, after) = (&self.determinants[k - 1], &self.determinants[k], &self.determinants[k + 1]);
        let exchanged = (&(before * after) + &(&lambda * &lambda)).over(middle);
        for row in &mut self.products[k + 1..] {
            let old = row[k].clone();
            row[k] = (&(after * &row[k - 1]) - &(&lambda * &old)).over(middle);
            row[k - 1] = (&(&exchanged * &old) + &(&lambda * &row[k])).over(after);
        }
        self.determinants[k] = exchanged;
    }
}

/// Adds a multiple of one row to another.
fn add(rows: &mut [Vec<Whole>], to: usize, from: usize, times: &Whole) {
    for entry in 0..rows[to].len() {
        rows[to][entry] = &rows[to][entry] + &(&rows[from][entry] * times);
    }
}
