// What image-rider's files name and its published source lacks.

pub mod sanity_check {
    pub trait SanityCheck {
        fn check(&self) -> bool;
    }
}

pub mod stx {
    pub mod disk {
        use crate::config::Config;
        use crate::disk_format::image::DiskImageSaver;
        use crate::error::{Error, ErrorKind};

        pub struct STXTrack<'a> {
            pub sector_data: Option<Vec<&'a [u8]>>,
        }

        pub struct STXDisk<'a> {
            pub stx_tracks: Vec<STXTrack<'a>>,
        }

        #[derive(Clone, Copy, Debug, Eq, PartialEq)]
        pub struct STXDiskGuess<'a> {
            pub data: &'a [u8],
        }

        impl DiskImageSaver for STXDisk<'_> {
            fn save_disk_image(&self, _: &Config, _: Option<&str>, _: &str) -> Result<(), Error> {
                Err(Error::new(ErrorKind::new("not there")))
            }
        }

        pub fn stx_disk_parser(i: &[u8]) -> nom::IResult<&[u8], STXDisk<'_>> {
            Err(nom::Err::Error(nom::error::Error::new(
                i,
                nom::error::ErrorKind::Fail,
            )))
        }
    }
}
