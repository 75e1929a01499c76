//! Many images, of whose files few stay open.

use crate::connections::nodes::{SAMPLE, Scene};
use crate::connections::viewers::{Sends, Text, is_sent};
use crate::connections::visits::{Visit, served};
use crate::fixtures::files::SAMPLE_FILE;
use iiif_image_list::ImageList;
use std::fs;
use std::net::TcpListener;
use std::test::Fail;

/// How many images there are where there is room for four open files.
const MANY: u16 = 40;

/// The file of the image of a number: the sample, whose first two samples are the number.
fn numbered(number: u16) -> [u8; 190] {
    let mut file = SAMPLE_FILE;
    let [low, high] = number.to_le_bytes();
    file[174] = low;
    file[175] = high;
    file
}

/// Whether the image of a number is answered as its own file.
fn is_answered_rightly(rt: &HostRuntime, viewers: &TcpListener, number: u16) -> bool {
    let request = format!(in rt.alloc();
        "GET /iiif/n{number}/full/max/0/default.tif HTTP/1.1\r\nConnection: close\r\n\r\n"
    );
    let Ok(request) = request else {
        return false;
    };
    let file = numbered(number);
    let sends = Sends {
        request: request.as_bytes(),
        ends: false,
        wanted: Text::Framed(b"HTTP/1.1 200 OK\r\n", &file),
    };
    is_sent(rt, viewers, &sends)
}

/// Whether each of the images is answered as its own file.
pub(crate) fn are_all_answered(rt: &HostRuntime, viewers: &TcpListener) -> bool {
    for number in 0..MANY {
        if !is_answered_rightly(rt, viewers, number) {
            return false;
        }
    }
    true
}

/// Writes the file of each image, and gives the list of them.
fn long_list(rt: &HostRuntime) -> Result<String, Fail> {
    let mut list = String::new(rt.alloc());
    for number in 0..MANY {
        let path = format!(in rt.alloc(); "option_long_{number}.tif")?;
        fs::write(rt, path.as_str(), &numbered(number))?;
        let line = format!(in rt.alloc(); "n{number}={path}\n")?;
        list.push_str(line.as_str())?;
    }
    Ok(list)
}

/// How many files of the list stay open, and of how many bytes one is held in memory: a few, one alone, one byte less than a file has, and
/// as many as it has, so that all are held.
static ROOMS: [(usize, u64); 4] = [(4, 0), (1, 0), (1, 189), (1, 190)];

#[test]
fn images_of_a_long_list_in_little_room(rt: HostRuntime) -> Result<(), Fail> {
    let list = long_list(&rt)?;
    let mut images = ImageList::new(rt.alloc());
    assert!(rt; images.add_text(list.as_bytes()).is_ok());
    let images = images.into_pairs(rt.alloc())?;
    for (open_files, hold) in ROOMS.iter() {
        let scene = Scene {
            images: &images,
            open_files: *open_files,
            hold: *hold,
            ..SAMPLE
        };
        assert!(rt;
            served(&rt, &rt, &scene, Visit::ForAll).is_some(),
            "{open_files}, {hold}"
        );
    }
    Ok(())
}
