//! The rings of an area whose outline is split over several ways.

/// Joins ways that meet at an end until none is left to join: closed rings,
/// or open lines where a way is missing.
pub fn rings(mut ways: Vec<Vec<i64>>) -> Vec<Vec<i64>> {
    let mut rings = Vec::new();
    while let Some(mut ring) = ways.pop() {
        while ring.first() != ring.last() {
            let Some(next) = ways.iter().position(|way| meets(&ring, way)) else {
                break;
            };
            join(&mut ring, ways.swap_remove(next));
        }
        rings.push(ring);
    }
    rings
}

/// Whether an open way begins or ends where the ring ends so far.
fn meets(ring: &[i64], way: &[i64]) -> bool {
    let is_open = way.first() != way.last();
    is_open && (way.first() == ring.last() || way.last() == ring.last())
}

fn join(ring: &mut Vec<i64>, mut way: Vec<i64>) {
    if way.first() != ring.last() {
        way.reverse();
    }
    ring.extend(way.into_iter().skip(1));
}

#[cfg(test)]
mod tests {
    use super::rings;

    #[test]
    fn ways_are_joined_whatever_their_direction() {
        let joined = rings(vec![vec![3, 4, 1], vec![3, 2], vec![1, 2]]);
        assert_eq!(joined, [[1, 2, 3, 4, 1]]);
    }

    #[test]
    fn rings_that_are_closed_stay_as_they_are() {
        let joined = rings(vec![vec![1, 2, 1], vec![5, 6, 5], vec![]]);
        assert_eq!(joined, [vec![], vec![5, 6, 5], vec![1, 2, 1]]);
    }

    #[test]
    fn what_is_not_closed_stays_open() {
        assert_eq!(rings(vec![vec![1, 2], vec![7, 8]]).len(), 2);
    }
}
