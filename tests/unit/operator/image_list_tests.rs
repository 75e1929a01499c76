//! Images named by words and by the lines of texts.

use crate::fixtures::{is_missing, is_same, is_unwanted, is_written};
use iiif_image_list::{Fault, FolderFault, FolderImage, ImageList, ListFault, name_of};
use std::alloc::Global;
use std::process::Abort;

/// A call of a list, and what is to come of it.
#[derive(Clone, Copy)]
enum Step {
    /// A word names an image.
    Word(&'static str),
    /// A word is refused.
    Refused(&'static str, Fault),
    /// A word names an image, once more where memory ran out.
    WordAgain(&'static str),
    /// The lines of a text name images, once more where memory ran out, which is told of the first line.
    TextAgain(&'static [u8]),
    /// Whether there is an image of a name.
    Has(&'static str, bool),
    /// The images, in order.
    Images(&'static [(&'static str, &'static str)]),
}

/// Whether a list has just these images, in this order.
fn has_images(list: &ImageList<'_>, images: &[(&str, &str)]) -> bool {
    let mut rest = images.iter();
    for (name, file) in list.iter() {
        if !is_same(&rest.next(), &Some(&(*name, *file))) {
            return false;
        }
    }
    rest.next().is_none()
}

/// Whether a word names an image, once more where memory ran out.
fn is_named_again(list: &mut ImageList<'static>, word: &'static str) -> bool {
    match list.add(word) {
        Ok(()) => true,
        Err(fault) => is_same(&fault, &Fault::NoMemory) && is_same(&list.add(word), &Ok(())),
    }
}

/// Whether the lines of a text name images, once more where memory ran out: that is told of the first line, and nothing is
/// named then.
fn goes_on(list: &mut ImageList<'static>, text: &'static [u8]) -> bool {
    match list.add_text(text) {
        Ok(()) => true,
        Err(stop) => {
            let told = is_same(&stop.fault, &Fault::NoMemory) && is_same(&stop.line, &1);
            told && has_images(list, &[]) && is_same(&list.add_text(text), &Ok(()))
        }
    }
}

/// Whether a step comes to what it is to.
fn is_right(list: &mut ImageList<'static>, step: Step) -> bool {
    match step {
        Step::Word(word) => is_same(&list.add(word), &Ok(())),
        Step::Refused(word, fault) => is_same(&list.add(word), &Err(fault)),
        Step::WordAgain(word) => is_named_again(list, word),
        Step::TextAgain(text) => goes_on(list, text),
        Step::Has(name, has) => is_same(&list.has(name), &has),
        Step::Images(images) => has_images(list, images),
    }
}

/// Each step of an empty list comes to what it is to.
fn run(rt: &impl Abort, alloc: Global, steps: &[Step]) {
    let mut list = ImageList::new(alloc);
    for (place, step) in steps.iter().enumerate() {
        assert!(rt; is_right(&mut list, *step), "step {place}");
    }
}

static WORDS: [Step; 13] = [
    Step::Word("a=one.tif"),
    Step::Refused("b", Fault::Parts),
    Step::Refused("", Fault::Parts),
    Step::Refused("=one.tif", Fault::Name),
    Step::Refused("a=two.tif", Fault::Twice),
    Step::Word("b==two=.tif"),
    Step::Word(" a="),
    Step::Word("#=:sample"),
    Step::Images(IMAGES),
    Step::Has("a", true),
    Step::Has("#", true),
    Step::Has("c", false),
    Step::Has("", false),
];

/// The images of these words.
const IMAGES: &[(&str, &str)] = &[
    ("a", "one.tif"),
    ("b", "=two=.tif"),
    (" a", ""),
    ("#", ":sample"),
];

/// Whether the pairs of a list are these images.
fn makes_pairs(alloc: Global, list: ImageList<'_>, images: &[(&str, &str)]) -> bool {
    match list.into_pairs(alloc) {
        Ok(pairs) => is_same(&pairs.as_slice(), &images),
        Err(fault) => is_unwanted(&fault),
    }
}

/// Whether those steps, one after another, make the pairs of these images.
fn make_pairs(alloc: Global, steps: &[Step], images: &[(&str, &str)]) -> bool {
    let mut list = ImageList::new(alloc);
    for step in steps {
        if !is_right(&mut list, *step) {
            return false;
        }
    }
    makes_pairs(alloc, list, images)
}

#[test]
fn words_name_images_once(rt: HostRuntime) {
    run(&rt, rt.alloc(), WORDS.as_slice());
    assert!(rt; make_pairs(rt.alloc(), WORDS.as_slice(), IMAGES));
}

/// A word whose name has so many bytes.
fn word_with_name_of(alloc: Global, bytes: u32) -> Option<String> {
    let mut word = String::new(alloc);
    for _ in 0..bytes {
        word.push('n').ok()?;
    }
    word.push_str("=file.tif").ok()?;
    Some(word)
}

/// Whether a word is refused for its name, and another is taken after it.
fn is_longer(alloc: Global, longer: &str, longest: &str) -> bool {
    let mut list = ImageList::new(alloc);
    is_same(&list.add(longer), &Err(Fault::Name)) && is_same(&list.add(longest), &Ok(()))
}

/// Whether a name of so many bytes is refused, and one of so many others is taken after it.
fn goes_up_to(alloc: Global, longer: u32, longest: u32) -> Option<bool> {
    let longer = word_with_name_of(alloc, longer)?;
    let longest = word_with_name_of(alloc, longest)?;
    Some(is_longer(alloc, longer.as_str(), longest.as_str()))
}

#[test]
fn name_has_up_to_1024_bytes(rt: HostRuntime) {
    assert!(rt; goes_up_to(rt.alloc(), 1025, 1024) == Some(true));
}

/// Texts, and the images that their lines name.
static TEXTS: [(&str, &[(&str, &str)]); 10] = [
    ("", &[]),
    ("\n\r\n\n", &[]),
    ("# a=b\n#", &[]),
    ("a=b", &[("a", "b")]),
    ("a=b\r\nc=d e\r\n", &[("a", "b"), ("c", "d e")]),
    (
        "# scans\n\nä=ü.tif\n#c=d\nc d= e \r\n",
        &[("ä", "ü.tif"), ("c d", " e ")],
    ),
    ("\u{feff}", &[]),
    (
        "\u{feff}a=b\n\u{feff}c=d",
        &[("a", "b"), ("\u{feff}c", "d")],
    ),
    ("\u{feff}# a=b\nc=d", &[("c", "d")]),
    ("a=b\rc=d\r\n\re=f\r", &[("a", "b\rc=d"), ("\re", "f\r")]),
];

/// Whether the lines of a text name just these images.
fn names(alloc: Global, text: &str, images: &[(&str, &str)]) -> bool {
    let mut list = ImageList::new(alloc);
    is_same(&list.add_text(text.as_bytes()), &Ok(())) && has_images(&list, images)
}

#[test]
fn lines_of_a_text_name_images(rt: HostRuntime) {
    for (text, images) in TEXTS.iter() {
        assert!(rt; names(rt.alloc(), text, images), "{text}");
    }
}

/// Texts, their first line at fault, and why it is, where there is an image named `first`.
static FAULTS: [(&[u8], u64, Fault); 16] = [
    (b"first=x\n", 1, Fault::Twice),
    (b"a", 1, Fault::Parts),
    (b"a=b\n\n \nc=d", 3, Fault::Parts),
    (b"a=b\r\n=c\r\n", 2, Fault::Name),
    (b"a=b\n# a\na=c\nd\n", 3, Fault::Twice),
    (b"a=b\nfirst=c", 2, Fault::Twice),
    (b"\xff", 1, Fault::Encoding),
    (b"d\nd\n# \xc3\n", 3, Fault::Encoding),
    (b"a=b\n\xc3", 2, Fault::Encoding),
    (b" a=b", 1, Fault::Blank),
    (b"a=b\n\n# c\nc =d", 4, Fault::Blank),
    (b"a=b\nc\t=d", 2, Fault::Blank),
    (b"a=b\r\n =d\r\n", 2, Fault::Blank),
    (b"\xef\xbb\xbfa=b\n\tc=d", 2, Fault::Blank),
    (b"\xef\xbb\xbfa", 1, Fault::Parts),
    (b"\xef\xbba=b", 1, Fault::Encoding),
];

/// Whether a text's line is refused so behind an image named `first`, which stays. The lines before it name images, of a text that is
/// UTF-8.
fn is_refused(alloc: Global, text: &[u8], line: u64, fault: Fault) -> bool {
    let mut list = ImageList::new(alloc);
    is_same(&list.add("first=one.tif"), &Ok(()))
        && is_same(&list.add_text(text), &Err(ListFault { line, fault }))
        && is_same(&list.has("a"), &(line > 1 && fault != Fault::Encoding))
        && list.has("first")
}

#[test]
fn first_line_at_fault_is_told(rt: HostRuntime) {
    for (place, (text, line, fault)) in FAULTS.iter().enumerate() {
        assert!(rt; is_refused(rt.alloc(), text, *line, *fault), "text {place}");
    }
}

#[test]
fn faults_are_said_in_words(rt: HostRuntime) {
    let fault = ListFault {
        line: 12,
        fault: Fault::Twice,
    };
    assert!(rt;
        is_written(
            rt.alloc(),
            &fault,
            "line 12: there is an image of that name"
        )
    );
    let fault = ListFault {
        line: 3,
        fault: Fault::Blank,
    };
    assert!(rt;
        is_written(
            rt.alloc(),
            &fault,
            "line 3: there is a blank before or behind the name"
        )
    );
}

static WORDS_AGAIN: [Step; 4] = [
    Step::WordAgain("a=b"),
    Step::WordAgain("c=d"),
    Step::WordAgain("e=f"),
    Step::Images(&[("a", "b"), ("c", "d"), ("e", "f")]),
];

#[test]
fn image_is_named_after_a_refused_growth(rt: HostRuntime) {
    run(&rt, rt.alloc(), WORDS_AGAIN.as_slice());
}

static TEXT_AGAIN: [Step; 2] = [
    Step::TextAgain(b"a=b\nc=d\n"),
    Step::Images(&[("a", "b"), ("c", "d")]),
];

#[test]
fn text_goes_on_after_a_refused_growth(rt: HostRuntime) {
    run(&rt, rt.alloc(), TEXT_AGAIN.as_slice());
}

/// Adds a line that names an image of this number.
fn add_line(alloc: Global, text: &mut String, number: u32) -> Option<()> {
    let line = format!(in alloc; "scan-{number}=/scans/{number}.tif\n").ok()?;
    text.push_str(line.as_str()).ok()
}

/// A text that names the images `scan-0` to `scan-19999`.
fn twenty_thousand_lines(alloc: Global) -> Option<String> {
    let mut text = String::new(alloc);
    for number in 0..20_000u32 {
        add_line(alloc, &mut text, number)?;
    }
    Some(text)
}

/// Whether all images of that text are named, and no word names one of them again.
fn tells_them_apart(alloc: Global, text: &str) -> bool {
    let mut list = ImageList::new(alloc);
    is_same(&list.add_text(text.as_bytes()), &Ok(()))
        && list.has("scan-0")
        && list.has("scan-19999")
        && is_same(&list.add("scan-7=x"), &Err(Fault::Twice))
        && is_same(&list.add("scan-20000=x"), &Ok(()))
}

/// Whether the names of that text are told apart.
fn are_told_apart(alloc: Global) -> bool {
    match twenty_thousand_lines(alloc) {
        Some(text) => tells_them_apart(alloc, text.as_str()),
        None => is_missing(),
    }
}

#[test]
fn twenty_thousand_names_are_told_apart(rt: HostRuntime) {
    assert!(rt; are_told_apart(rt.alloc()));
}

/// Files' names, and the images' names that they are, if any.
static FILES: [(&str, Option<&str>); 12] = [
    ("a.tif", Some("a")),
    ("a.tiff", Some("a")),
    ("a b.TIF", Some("a b")),
    ("ä=.TIFF", Some("ä=")),
    ("a.tif.tif", Some("a.tif")),
    ("a..tif", Some("a.")),
    ("a.Tif", None),
    ("a.tif~", None),
    ("atif", None),
    ("a.jpg", None),
    (".a.tif", None),
    (".tif", None),
];

#[test]
fn file_of_a_folder_names_an_image_without_its_ending(rt: HostRuntime) {
    for (file, name) in FILES.iter().copied() {
        assert!(rt; is_same(&name_of(file), &name), "{file}");
    }
}

/// An image of a folder.
fn folder_image(alloc: Global, name: &str, path: &str) -> Option<FolderImage> {
    Some(FolderImage {
        name: String::from_str(alloc, name).ok()?,
        path: String::from_str(alloc, path).ok()?,
    })
}

/// Whether of three images of a folder, the third of which has the first one's name, two are taken behind one that is there.
fn two_are_taken(alloc: Global) -> Option<bool> {
    let mut files = Vec::new(alloc);
    files.push(folder_image(alloc, "b", "f/b.tif")?).ok()?;
    files.push(folder_image(alloc, "c=d", "f/c=d.tif")?).ok()?;
    files.push(folder_image(alloc, "b", "f/b.tiff")?).ok()?;
    let mut list = ImageList::new(alloc);
    list.add("a=:sample").ok()?;
    let wanted = FolderFault {
        place: 2,
        fault: Fault::Twice,
    };
    let refused = is_same(&list.add_files(&files), &Err(wanted));
    let images = [("a", ":sample"), ("b", "f/b.tif"), ("c=d", "f/c=d.tif")];
    Some(refused && has_images(&list, &images))
}

#[test]
fn folder_ends_at_a_file_whose_name_is_there(rt: HostRuntime) {
    assert!(rt; two_are_taken(rt.alloc()) == Some(true));
}
