//! The text's ranges are those of the archive.

#[test]
fn the_same_ranges() {
    use scatterflock::sizes;
    use text::{limits, times};
    assert_eq!(limits::MOST_VARIABLES, sizes::MOST_VARIABLES);
    assert_eq!(limits::MOST_ROWS, sizes::MOST_ROWS);
    assert_eq!(limits::LARGEST_COEFFICIENT, sizes::LARGEST_COEFFICIENT);
    assert_eq!(limits::LARGEST_LIMIT, sizes::LARGEST_LIMIT);
    assert_eq!(times::MOST_VERTICES, sizes::MOST_VERTICES);
    assert_eq!(times::MOST_ROWS, sizes::MOST_TIME_ROWS);
    assert_eq!(times::LARGEST, sizes::LARGEST_LENGTH);
}
