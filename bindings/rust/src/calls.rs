//! The calls that have one form for all keys and values.

/// Writes these calls of a `Cache`, over the functions of the library that are named. The cache is closed when it is
/// dropped.
macro_rules! common_calls {
    (
        $invalidate_all:ident,
        $run_pending_tasks:ident,
        $run_pending_tasks_up_to:ident,
        $entry_count:ident,
        $weighted_size:ident,
        $close:ident
    ) => {
        // SAFETY: the library proves that its handle may go to another thread.
        unsafe impl Send for Cache {}

        impl Cache {
            /// Marks all entries as invalidated. A later maintenance removes them.
            pub fn invalidate_all(&mut self) {
                unsafe { ffi::$invalidate_all(&mut self.handle) };
            }

            /// Runs a maintenance, and queues a notice of each entry that it evicts.
            pub fn run_pending_tasks(&mut self, now: u64) {
                unsafe { ffi::$run_pending_tasks(&mut self.handle, now) };
            }

            /// Runs a maintenance that evicts at most `limit` entries. Returns whether a part is left to do.
            pub fn run_pending_tasks_up_to(&mut self, limit: u64, now: u64) -> bool {
                let mut is_left = false;
                unsafe { ffi::$run_pending_tasks_up_to(&mut self.handle, limit, now, &mut is_left) };
                is_left
            }

            /// Returns how many entries are stored, pending and expired ones included.
            pub fn entry_count(&mut self) -> u64 {
                let mut count = 0;
                unsafe { ffi::$entry_count(&mut self.handle, &mut count) };
                count
            }

            /// Returns the total weight of the stored entries, pending and expired ones included.
            pub fn weighted_size(&mut self) -> u64 {
                let mut weight = 0;
                unsafe { ffi::$weighted_size(&mut self.handle, &mut weight) };
                weight
            }
        }

        impl Drop for Cache {
            fn drop(&mut self) {
                unsafe { ffi::$close(&mut self.handle) };
            }
        }
    };
}

pub(crate) use common_calls;
