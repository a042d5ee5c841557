//! A replacement for Rattle's `std::os`: the calls on files that only Unix has.

pub mod unix {
    pub mod fs {
        use crate::rattle_std::fs::{copied, OpenOptions};
        use crate::rattle_std::io::Result;
        use crate::rattle_std::rt::Files;

        pub use std::os::unix::fs::{FileTypeExt, MetadataExt, PermissionsExt};

        /// Changes the owner, the group, or both, of the file at the path.
        pub fn chown<R: Files>(
            _rt: &R,
            path: &str,
            uid: Option<u32>,
            gid: Option<u32>,
        ) -> Result<()> {
            Ok(std::os::unix::fs::chown(copied(path)?, uid, gid)?)
        }

        /// The Unix options with which a file is opened.
        pub trait OpenOptionsExt {
            /// Sets the permissions of the file, if the call creates it.
            fn mode(&mut self, mode: u32) -> &mut Self;
        }

        impl OpenOptionsExt for OpenOptions {
            fn mode(&mut self, mode: u32) -> &mut OpenOptions {
                std::os::unix::fs::OpenOptionsExt::mode(&mut self.0, mode);
                self
            }
        }
    }
}
