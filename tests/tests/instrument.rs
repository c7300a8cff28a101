//! The example `instrument.c`: it loses power in the middle of a put, and recovers what is queued.

use std::path::PathBuf;
use winterbeam_tests::client::program;

/// A file of the test's own, removed at its end.
struct Image(PathBuf);

impl Image {
    fn new(name: &str) -> Image {
        let name = format!("winterbeam-{name}-{}", std::process::id());
        Image(std::env::temp_dir().join(name))
    }
}

impl Drop for Image {
    fn drop(&mut self) {
        let _ = std::fs::remove_file(&self.0);
    }
}

/// What the program writes, and whether it ends well.
fn instrument(word: &str, image: &Image) -> (String, bool) {
    let mut command = program("instrument");
    let output = command.arg(word).arg(&image.0).output();
    let output = output.unwrap_or_else(|error| panic!("{command:?}: {error}"));
    assert_eq!(String::from_utf8_lossy(&output.stderr), "");
    (String::from_utf8(output.stdout).unwrap(), output.status.success())
}

const WORK: &str = "confirmed 711 as number 0
confirmed 712 as number 1
confirmed 713 as number 2
handed out 711
714 has landed and isn't written back: the power goes
";

const RECOVERED: &str = "recovered: Head 1, Tail 3, open
queued 712 as number 1
queued 713 as number 2
";

#[test]
fn what_was_confirmed_and_not_handed_out_is_queued() {
    let image = Image::new("cut");
    assert_eq!(instrument("work", &image), (WORK.to_string(), true));
    // Power may go again right after recovery.
    for _ in 0..2 {
        assert_eq!(instrument("recover", &image), (RECOVERED.to_string(), true));
    }
}

#[test]
fn a_damaged_file_is_refused_and_left_alone() {
    let image = Image::new("damaged");
    instrument("work", &image);
    let good = std::fs::read(&image.0).unwrap();
    let mut unsound = good.clone();
    unsound[0] = 2;
    for (bytes, number) in [(&good[..good.len() - 1], 10), (&unsound[..], 12)] {
        std::fs::write(&image.0, bytes).unwrap();
        assert_eq!(instrument("recover", &image), (format!("refused {number}\n"), false));
        assert_eq!(std::fs::read(&image.0).unwrap(), bytes);
    }
}
