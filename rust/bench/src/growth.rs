//! A power law through points, by least squares on their logarithms.

/// y = c x^exponent.
pub struct Fit {
    pub exponent: f64,
    log_c: f64,
}

impl Fit {
    pub fn at(&self, x: f64) -> f64 {
        (self.log_c + self.exponent * x.ln()).exp()
    }
}

pub fn fit(points: &[(f64, f64)]) -> Fit {
    let count = points.len() as f64;
    let logs = || points.iter().map(|&(x, y)| (x.ln(), y.ln()));
    let (mean_x, mean_y) = logs().fold((0.0, 0.0), |(a, b), (x, y)| (a + x / count, b + y / count));
    let (xx, xy) =
        logs().fold((0.0, 0.0), |(a, b), (x, y)| (a + (x - mean_x).powi(2), b + (x - mean_x) * (y - mean_y)));
    let exponent = xy / xx;
    Fit { exponent, log_c: mean_y - exponent * mean_x }
}

#[cfg(test)]
mod tests {
    use super::fit;

    #[test]
    fn a_power_law_is_found_again() {
        let points: Vec<(f64, f64)> = [1.0, 2.0, 5.0, 9.0].map(|x: f64| (x, 3.0 * x.powf(0.7))).to_vec();
        let fit = fit(&points);
        assert!((fit.exponent - 0.7).abs() < 1e-9);
        assert!((fit.at(1.0) - 3.0).abs() < 1e-9);
    }
}
