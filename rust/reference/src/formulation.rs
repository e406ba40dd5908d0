//! Time weights, from copp's `formulation.rs`.

/// Get the weight of `a` for the time objective.
pub fn get_weight_a_topp3(s: &[f64], num_stationary: (usize, usize)) -> Vec<f64> {
    let n = s.len() - 1;
    let mut weight_a = vec![0.0; s.len()];
    if num_stationary.0 > 0 {
        weight_a[num_stationary.0] =
            0.5 * (5.0 * s[num_stationary.0] + s[num_stationary.0 + 1] - 6.0 * s[0]);
    }
    if num_stationary.1 > 0 {
        weight_a[n - num_stationary.1] =
            0.5 * (6.0 * s[n] - 5.0 * s[n - num_stationary.1] - s[n - num_stationary.1 - 1]);
    }
    weight_a
        .iter_mut()
        .skip(1)
        .zip(s.windows(3))
        .skip(num_stationary.0)
        .take(n - num_stationary.0 - num_stationary.1 - 1)
        .for_each(|(w_a, s_slice)| {
            *w_a = 0.5 * (s_slice[2] - s_slice[0]);
        });

    weight_a
}
