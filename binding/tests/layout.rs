//! A page levelled, and back; the levelled place of each pixel, and back.

use lanegravel_binding::Question;
use lanegravel_binding::layout::Page;

const GRAY: [u8; 6] = [10, 11, 20, 21, 30, 31];

fn page() -> Page<'static> {
    Page {
        page_width: 2,
        page_height: 3,
        width: 4,
        height: 5,
        gray: &GRAY,
        shear: &[0, 2],
        shear_x: &[0, 1, 2, 1, 0],
    }
}

#[test]
fn there_and_back() {
    let (mut levelled, mut back) = ([0; 20], [0; 6]);
    assert_eq!(page().level_gray(&mut levelled), Ok(()));
    let archive = Page {
        gray: &[], // the way back needs none
        ..page()
    };
    assert_eq!(archive.unlevel(&levelled, &mut back), Ok(()));
    assert_eq!(back, GRAY);
}

#[test]
fn refused() {
    let mut out = [7; 6];
    let page = page();
    assert_eq!(
        page.unlevel(&[0; 19], &mut out[..5]),
        Err(Question::Lengths)
    );
    assert_eq!(page.unlevel(&[0; 19], &mut out), Err(Question::Room));
    assert_eq!(page.unlevel(&[0; 21], &mut out), Err(Question::Room));
    assert_eq!(out, [7; 6]);
}

#[test]
fn pixels() {
    let page = page();
    for (x, y) in (0..3).flat_map(|y| (0..2).map(move |x| (x, y))) {
        let row = y + page.shear[x] as usize;
        let column = x + page.shear_x[row] as usize;
        let place = page.to_page(column as u32, row as u32);
        assert_eq!(place, Ok((x as i64, y as i64)));
    }
}
