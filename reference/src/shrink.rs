//! Shrinks a list of calls while it still shows a difference.

/// The list with calls taken away, in ever smaller groups, until none can be spared.
pub fn shrink<Line: Clone>(lines: &[Line], mut shows: impl FnMut(&[Line]) -> bool) -> Vec<Line> {
    let mut kept = lines.to_vec();
    let mut group = kept.len().div_ceil(2).max(1);
    loop {
        let spared = take_away(&mut kept, group, &mut shows);
        if group > 1 {
            group = group.div_ceil(2);
        } else if !spared {
            return kept;
        }
    }
}

/// Tries to spare each group of calls once; tells whether one was.
fn take_away<Line: Clone>(
    kept: &mut Vec<Line>,
    group: usize,
    shows: &mut impl FnMut(&[Line]) -> bool,
) -> bool {
    let mut spared = false;
    let mut end = kept.len();
    while end > 0 {
        let start = end.saturating_sub(group);
        let rest = [&kept[..start], &kept[end..]].concat();
        if shows(&rest) {
            *kept = rest;
            spared = true;
        }
        end = start;
    }
    spared
}

#[cfg(test)]
mod tests {
    use super::*;

    #[test]
    fn what_is_needed_stays_in_order() {
        let lines: Vec<u32> = (0..1000).collect();
        let needed = [3, 500, 501, 999];
        let mut runs = 0;
        let shortest = shrink(&lines, |rest| {
            runs += 1;
            needed.iter().all(|line| rest.contains(line))
        });
        assert_eq!(shortest, needed);
        assert!(runs < 200, "{runs}");
    }

    #[test]
    fn one_line_or_none() {
        assert_eq!(shrink(&[1, 2, 3], |rest| rest.contains(&2)), [2]);
        assert_eq!(shrink(&[1, 2, 3], |_| true), []);
        assert_eq!(shrink(&[1, 2, 3], |_| false), [1, 2, 3]);
        assert_eq!(shrink(&[] as &[u32], |_| true), []);
    }

    #[test]
    fn lines_that_depend_on_later_ones_are_spared_too() {
        // 5 can go only after 6 is gone.
        let shows = |rest: &[u32]| rest.contains(&1) && (!rest.contains(&6) || rest.contains(&5));
        assert_eq!(shrink(&[1, 5, 6, 7], shows), [1]);
    }
}
