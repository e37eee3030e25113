//! What is said of a picture in which a sum wraps.

mod common;
use common::pictures::Grey;
use common::*;
use reference::Size;

const SIZE: Size = Size { width: 2, height: 1 };

/// A file all of zeros but for one number: DC, low-pass or high-pass, and its place.
fn file_of_one(mode: u32, plane: usize, place: usize, number: i32) -> (Planes, Vec<u8>) {
    let mut planes = [2, 30, 480].map(|count| vec![0; count]);
    planes[plane][place] = number;
    let file = file_of_planes(mode, SIZE, &planes);
    (planes, file)
}

/// One line on standard error where a sum wrapped, none where not; the picture is written either way.
#[test]
fn export_says_it() {
    let folder = Folder::new("export_wraps");
    let out = folder.path("out.png");
    for mode in 0..=2 {
        let mut told = Vec::new();
        for (plane, place, number) in
            [(0, 1, 0), (0, 1, i32::MAX), (1, 22, i32::MIN), (2, 472, i32::MIN)]
        {
            let (planes, bytes) = file_of_one(mode, plane, place, number);
            let file = folder.write("planes", &bytes);
            let wraps = wraps_of_planes(mode, SIZE, &planes);
            let ran = lapped(&["export", &file, "-o", &out, "--range", "auto"]);
            assert_eq!((ran.status, ran.text(), &ran.err), (0, "", &note_of_wraps(&file, wraps)));
            assert_eq!(Grey::from_file("png", &folder.read("out.png")).width, 32);

            let mut view = vec![0; 32];
            let [dc, low, _] = &planes;
            let of_view = reference::quarter_view(mode, SIZE, dc, low, &mut view).unwrap();
            let ran = lapped(&["export", &file, "--quarter", "-o", &out, "--range", "auto"]);
            assert_eq!((ran.status, ran.text(), &ran.err), (0, "", &note_of_wraps(&file, of_view)));
            assert_eq!(Grey::from_file("png", &folder.read("out.png")).width, 8);
            told.push((wraps, of_view));
        }
        let expected = [(false, false), (true, true), (true, true), (true, false)];
        assert_eq!(told, expected, "mode {mode}");
    }
}

/// Where standard output has the picture, the line is still beside it.
#[test]
fn export_to_a_pipe() {
    let (_, bytes) = file_of_one(1, 0, 0, i32::MAX);
    let ran = lapped_reading(&["export", "-", "-o", "-", "--range", "auto"], &bytes);
    assert_eq!((ran.status, Grey::from_file("png", &ran.out).width), (0, 32));
    assert_eq!(ran.err, note_of_wraps("-", true));
}

/// No picture of 16 bits makes a sum wrap: import says nothing of black and white dots at random.
#[test]
fn import_has_nothing_to_say() {
    let folder = Folder::new("import_wraps");
    let mut grey = Grey::any(32, 16, 16);
    let mut random = reference::random::Random::new(22);
    grey.samples.iter_mut().for_each(|sample| *sample = 65_535 * random.below(2) as i32);
    let picture = folder.write("in.png", &grey.to_file("png"));
    for mode in ["0", "1", "2"] {
        lapped(&["import", &picture, "-m", mode, "-o", &folder.path("out")]).assert_done(mode);
    }
}
