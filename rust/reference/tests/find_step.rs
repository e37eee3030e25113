//! The finder of the reference on pictures whose answers are worked out by hand from the rules of 02.

use reference::find_step::{find_step, indices, largest_difference, passes, restored};
use reference::{forward, inverse, Size};

const ONE: Size = Size { width: 1, height: 1 };

/// The samples of a 1 × 1 picture in mode 0 whose only number is its DC.
fn samples_of_dc(dc: i32) -> Vec<i32> {
    let mut samples = vec![7; 256];
    inverse(0, ONE, &[dc], &[0; 15], &[0; 240], &mut samples).unwrap();
    samples
}

/// Which indices besides 0 pass in mode 0.
fn passing(tolerance: u32, samples: &[i32]) -> Vec<u32> {
    indices().filter(|&index| passes(0, ONE, tolerance, index, samples)).collect()
}

/// What `find_step` answers in mode 0, with the planes and the second samples that it leaves.
fn found(tolerance: u32, samples: &[i32]) -> (u32, [Vec<i32>; 3], Vec<i32>) {
    let (mut planes, mut second) = ([vec![7], vec![7; 15], vec![7; 240]], vec![7; 256]);
    let [dc, low, high] = &mut planes;
    let index = find_step(0, ONE, tolerance, samples, [dc, low, high], &mut second).unwrap();
    (index, planes, second)
}

/// A flat picture's DC is 16 times its samples, and nothing else is in its planes. DC 64, all samples 4,
/// comes back the same by the steps that divide 64: those of the indices 2, 4, 8 and 16, of 32, where
/// the step is 16 × 2, and of 48, where it is 16 × 4.
#[test]
fn steps_that_divide_the_only_coefficient() {
    let samples = samples_of_dc(64);
    assert_eq!(samples, [4; 256]);
    assert_eq!(passing(0, &samples), [2, 4, 8, 16, 32, 48]);
    let (index, planes, second) = found(0, &samples);
    assert!([2, 4, 8, 16, 32, 48].contains(&index));
    assert_eq!((planes, second), ([vec![64], vec![0; 15], vec![0; 240]], samples));
}

/// What other steps make of DC 64, and how far the samples are then from 4.
#[test]
fn steps_that_change_the_only_coefficient() {
    let samples = samples_of_dc(64);
    for (index, dc, sample, difference) in [
        (40, 48, 3, 1),  // step 24 × 2: (64 + 24) div 48 is 1
        (52, 80, 5, 1),  // step 20 × 4: (64 + 40) div 80 is 1
        (56, 96, 6, 2),  // step 24 × 4: (64 + 48) div 96 is 1
        (60, 112, 7, 3), // step 28 × 4: (64 + 56) div 112 is 1
        (64, 128, 8, 4), // step 16 × 8: (64 + 64) div 128 is 1
        (65, 0, 0, 4),   // step 17 × 8: (64 + 68) div 136 is 0
        (255, 0, 0, 4),
    ] {
        let back = restored(0, ONE, index, &samples).unwrap();
        assert_eq!(back.planes, [vec![dc], vec![0; 15], vec![0; 240]], "index {index}");
        assert_eq!(back.samples, [sample; 256], "index {index}");
        assert!(passes(0, ONE, difference, index, &samples), "index {index}");
        assert!(!passes(0, ONE, difference - 1, index, &samples), "index {index}");
    }
    assert_eq!(passing(4, &samples).len(), 254, "no step takes DC 64 beyond 0 and 128");
}

/// One index for all bands, in a mode that filters: by step 48, that of index 40, 100 is 2 levels, −50 is
/// −1 and 33 is 1; 23 and −23 are none.
#[test]
fn every_band_by_the_same_step() {
    let size = Size::new(2, 1);
    let planes = |[dc, low, high, small]: [i32; 4]| {
        let mut planes = [vec![0, dc], vec![-small; 30], vec![small; 480]];
        planes[1][29] = low;
        planes[2][479] = high;
        planes
    };
    let samples_of = |[dc, low, high]: &[Vec<i32>; 3]| {
        let mut samples = vec![7; 512];
        inverse(2, size, dc, low, high, &mut samples).unwrap();
        samples
    };
    let back = restored(2, size, 40, &samples_of(&planes([100, -50, 33, 23]))).unwrap();
    assert_eq!(back.planes, planes([96, -48, 48, 0]));
    assert_eq!(back.samples, samples_of(&back.planes));
}

/// DC 1 gives nine ones and 247 zeros. Step 2 makes it 2, and every larger one makes it 0.
#[test]
fn no_index_but_0() {
    let samples = samples_of_dc(1);
    assert_eq!(passing(0, &samples), []);
    assert_eq!(found(0, &samples), (0, [vec![1], vec![0; 15], vec![0; 240]], samples.clone()));
    assert_eq!(restored(0, ONE, 2, &samples).unwrap().planes[0], [2]);
    for index in 3..=255 {
        assert_eq!(restored(0, ONE, index, &samples).unwrap().samples, [0; 256], "index {index}");
        assert!(passes(0, ONE, 1, index, &samples), "index {index}");
    }
}

/// 2147483647 by step 2 has level 1073741824, whose product is 2147483648; by step 3 it has level
/// 715827882 and the product 2147483646; by step 507904 it has level 4228, which can be restored.
/// −2147483648 comes back the same by steps 2, 4, .. and, by step 3, is rounded to −2147483649.
#[test]
fn products_that_leave_the_range() {
    let above = samples_of_dc(i32::MAX);
    let of_dc = |index, samples: &[i32]| Some(restored(0, ONE, index, samples)?.planes[0][0]);
    let some = [2, 3, 4, 16, 255].map(|index| of_dc(index, &above));
    assert_eq!(some, [None, Some(2_147_483_646), None, None, Some(2_147_418_112)]);
    for (index, expected) in [(2, false), (3, true), (4, false), (16, false), (255, true)] {
        assert_eq!(passes(0, ONE, u32::MAX, index, &above), expected, "index {index}");
    }
    let below = samples_of_dc(i32::MIN);
    assert_eq!([2, 4, 3].map(|index| of_dc(index, &below)), [Some(i32::MIN), Some(i32::MIN), None]);
    assert!(passes(0, ONE, 0, 2, &below) && !passes(0, ONE, u32::MAX, 3, &below));
}

/// Not reduced to 32 bits, where the ends of the range would be 1 apart.
#[test]
fn differences_are_exact() {
    assert_eq!(largest_difference(&[i32::MAX], &[i32::MIN]), 4_294_967_295);
    assert_eq!(largest_difference(&[i32::MIN], &[i32::MAX]), 4_294_967_295);
    assert_eq!(largest_difference(&[5, -3, 0], &[4, 3, 1]), 6);
    assert_eq!(largest_difference(&[i32::MIN], &[0]), 2_147_483_648);
}

/// The order of the checks: mode, width, height, both sample slices, the planes.
#[test]
fn refusals() {
    let answer = |mode, width, [samples, second, dc, low, high]: [usize; 5]| {
        let [samples, mut second, mut dc, mut low, mut high] =
            [samples, second, dc, low, high].map(|count| vec![0; count]);
        let planes = [&mut dc[..], &mut low, &mut high];
        find_step(mode, Size::new(width, 1), 9, &samples, planes, &mut second)
    };
    assert_eq!(answer(3, 0, [0; 5]), Err(1));
    assert_eq!(answer(0, 0, [0; 5]), Err(2));
    assert_eq!(answer(0, 526, [0; 5]), Err(2));
    assert_eq!(answer(0, 1, [0; 5]), Err(7));
    assert_eq!(answer(0, 1, [256, 255, 0, 0, 0]), Err(7));
    assert_eq!(answer(0, 1, [255, 256, 0, 0, 0]), Err(7));
    assert_eq!(answer(0, 1, [256, 256, 2, 0, 0]), Err(4));
    assert_eq!(answer(0, 1, [256, 256, 1, 16, 0]), Err(5));
    assert_eq!(answer(0, 1, [256, 256, 1, 15, 241]), Err(6));
    assert!(answer(0, 1, [256, 256, 1, 15, 240]).is_ok());
}

/// The planes are those of the forward call where nothing changes, whatever the picture.
#[test]
fn index_0_changes_nothing() {
    let samples: Vec<i32> = (0..256i32).map(|i| (i * i).wrapping_mul(9_999_991)).collect();
    let (mut dc, mut low, mut high) = (vec![0], vec![0; 15], vec![0; 240]);
    forward(0, ONE, &samples, &mut dc, &mut low, &mut high).unwrap();
    let back = restored(0, ONE, 0, &samples).unwrap();
    assert_eq!(back.planes, [dc, low, high]);
    assert_eq!(back.samples, samples);
}
