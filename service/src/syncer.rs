//! A thread that syncs a file each second, or when it is told to, so that the loop does not wait for the disk.
use std::fs::File;
use std::io;
use std::sync::mpsc::{channel, Receiver, Sender};
use std::sync::Arc;
use std::thread;
use std::time::{Duration, Instant};

pub struct Syncer {
    orders: Sender<Arc<File>>,
    done: Receiver<io::Result<()>>,
    /// When something was written that no sync has been ordered for.
    unsynced: Option<Instant>,
    is_syncing: bool,
}

impl Syncer {
    /// Starts the thread. `wake` is called when it has synced.
    pub fn start(wake: impl Fn() + Send + 'static) -> Syncer {
        let (orders, taken) = channel::<Arc<File>>();
        let (tell, done) = channel();
        thread::spawn(move || {
            for file in taken {
                if tell.send(file.sync_data()).is_err() {
                    break;
                }
                wake();
            }
        });
        Syncer { orders, done, unsynced: None, is_syncing: false }
    }

    /// Something was written.
    pub fn wrote(&mut self) {
        self.unsynced.get_or_insert_with(Instant::now);
    }

    /// All that was written is on the disk.
    pub fn has_synced(&mut self) {
        self.unsynced = None;
    }

    /// Whether something has waited for a second.
    pub fn is_due(&self) -> bool {
        self.unsynced.is_some_and(|it| it.elapsed() >= Duration::from_secs(1))
    }

    pub fn is_idle(&self) -> bool {
        !self.is_syncing
    }

    /// Whether a sync has ended since it was asked last.
    pub fn take_done(&mut self) -> io::Result<bool> {
        let Ok(done) = self.done.try_recv() else { return Ok(false) };
        done?;
        self.is_syncing = false;
        Ok(true)
    }

    /// Syncs what was written to the file so far.
    pub fn order(&mut self, file: &Arc<File>) {
        self.unsynced = None;
        self.is_syncing = self.orders.send(Arc::clone(file)).is_ok();
    }
}
