/// Check that the window keeps more station intervals than its two boundary blocks.
///
/// Each boundary reserves `num_stationary.max(1)` intervals, so the window of
/// `s_len` stations must satisfy
/// `s_len - 1 > num_stationary.0.max(1) + num_stationary.1.max(1)`.
fn check_num_station_intervals(
    function_name: &str,
    s_len: usize,
    num_stationary: (usize, usize),
) -> Result<(), CoppError> {
    let num_intervals = s_len.saturating_sub(1);
    let reserved = num_stationary
        .0
        .max(1)
        .saturating_add(num_stationary.1.max(1));
    if num_intervals <= reserved {
        return Err(CoppError::InvalidInput(
            function_name.into(),
            format!(
                "{num_intervals} station intervals must exceed \
                 num_stationary.0.max(1) + num_stationary.1.max(1) = {reserved} \
                 (num_stationary = {num_stationary:?})"
            ),
        ));
    }
    Ok(())
}


/// Get the weight of `a` for value function.
/// Loss = weight[0] * loss_average_left / sqrt(a[num_stationary.0]) + weight[n] * loss_average_right / sqrt(a[n - num_stationary.1]) + \sum_{k=num_stationary.0}^{n-num_stationary.1-1} weight_a[k] * loss[k] / sqrt(a[k])
pub(crate) fn get_weight_a_copp3(s: &[f64], num_stationary: (usize, usize)) -> Vec<f64> {
    let n = s.len() - 1;
    let mut weight_a = vec![0.0; s.len()];
    if num_stationary.0 > 0 {
        let s_n1 = s[num_stationary.0];
        weight_a[num_stationary.0] = 0.5 * (s[num_stationary.0 + 1] - s_n1);
        weight_a[0] = 3.0 * (s_n1 - s[0]);
    }
    if num_stationary.1 > 0 {
        let s_n2 = s[n - num_stationary.1];
        weight_a[n - num_stationary.1] = 0.5 * (s_n2 - s[n - num_stationary.1 - 1]);
        weight_a[n] = 3.0 * (s[n] - s_n2);
    }
    weight_a
        .iter_mut()
        .skip(1)
        .zip(s.windows(3))
        .skip(num_stationary.0)
        .take(n - num_stationary.0 - num_stationary.1 - 1)
        .for_each(|(w_a, s_slice)| {
            *w_a = 0.5 * (s_slice[2] - s_slice[0]);
        });

    weight_a
}
