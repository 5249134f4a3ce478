//! The pools of the daemon, each on a thread of its own.

use crate::failure::{Failure, Outcome};
use crate::host::{Host, PoolFacts};
use crate::layer::Refusal;
use crate::name;
use std::collections::BTreeMap;
use std::panic::{catch_unwind, AssertUnwindSafe};
use std::sync::atomic::{AtomicBool, Ordering::SeqCst};
use std::sync::mpsc::{channel, sync_channel, Receiver, Sender};
use std::sync::{Arc, Mutex, MutexGuard, PoisonError};
use std::thread;

type Job = Box<dyn FnOnce(&mut Host) + Send>;

/// A pool's thread. What is asked of the pool is run there, one job after another.
pub struct PoolThread {
    pub name: String,
    jobs: Sender<Job>,
    is_exported: AtomicBool,
}

/// All pools, by their names.
#[derive(Default)]
pub struct World {
    pools: Mutex<BTreeMap<String, Arc<PoolThread>>>,
}

/// What a pool is made of.
pub struct NewPool {
    pub name: String,
    pub blocks: u32,
    pub clock: i64,
    pub facts: PoolFacts,
}

impl PoolThread {
    fn start(new: NewPool) -> Result<PoolThread, Refusal> {
        let name = new.name.clone();
        let (jobs, received) = channel::<Job>();
        let (ready, is_ready) = sync_channel(1);
        let thread = thread::Builder::new().name(name.clone()).spawn(move || {
            match Host::create(new.name, new.blocks, new.clock, new.facts) {
                Ok(host) => {
                    let _ = ready.send(Ok(()));
                    serve(host, &received);
                }
                Err(refusal) => {
                    let _ = ready.send(Err(refusal));
                }
            }
        });
        thread.map_err(|_| Refusal::NoMemory)?;
        is_ready.recv().map_err(|_| Refusal::NoMemory)??;
        Ok(PoolThread { name, jobs, is_exported: AtomicBool::new(false) })
    }

    /// Runs a job with the pool, and waits for what it gives.
    pub fn run<T: Send + 'static>(&self, job: impl FnOnce(&mut Host) -> T + Send + 'static) -> Outcome<T> {
        let (result, got) = sync_channel(1);
        let ended = || Failure::Told(format!("internal error: the thread of pool '{}' has failed", self.name));
        let job = Box::new(move |host: &mut Host| {
            // A client that is gone doesn't wait for its answer.
            let _ = result.send(job(host));
        });
        self.jobs.send(job).map_err(|_| ended())?;
        got.recv().map_err(|_| ended())
    }

    pub fn is_exported(&self) -> bool {
        self.is_exported.load(SeqCst)
    }

    pub fn set_exported(&self, is_exported: bool) {
        self.is_exported.store(is_exported, SeqCst);
    }
}

/// The thread ends when nobody can send to it. A job that panics leaves the pool at its last sync.
fn serve(mut host: Host, jobs: &Receiver<Job>) {
    for job in jobs {
        if catch_unwind(AssertUnwindSafe(|| job(&mut host))).is_err() {
            host.go_back();
        }
    }
}

impl World {
    fn lock(&self) -> MutexGuard<'_, BTreeMap<String, Arc<PoolThread>>> {
        self.pools.lock().unwrap_or_else(PoisonError::into_inner)
    }

    /// The pool of a dataset's name, unless it is exported.
    pub fn pool_of(&self, dataset: &str) -> Option<Arc<PoolThread>> {
        self.any_pool(name::pool(dataset)).filter(|pool| !pool.is_exported())
    }

    /// A pool, exported or not.
    pub fn any_pool(&self, name: &str) -> Option<Arc<PoolThread>> {
        self.lock().get(name).cloned()
    }

    /// The pools that aren't exported, in order.
    pub fn pools(&self) -> Vec<Arc<PoolThread>> {
        self.lock().values().filter(|pool| !pool.is_exported()).cloned().collect()
    }

    pub fn exported_pools(&self) -> Vec<Arc<PoolThread>> {
        self.lock().values().filter(|pool| pool.is_exported()).cloned().collect()
    }

    /// Makes a pool; none where its name is taken.
    pub fn create(&self, new: NewPool) -> Result<Option<Arc<PoolThread>>, Refusal> {
        let mut pools = self.lock();
        if pools.contains_key(&new.name) {
            return Ok(None);
        }
        let pool = Arc::new(PoolThread::start(new)?);
        pools.insert(pool.name.clone(), Arc::clone(&pool));
        Ok(Some(pool))
    }

    pub fn destroy(&self, name: &str) -> bool {
        self.lock().remove(name).is_some()
    }

    /// Gives a pool another name; the pool's own is changed by its thread.
    pub fn rename(&self, name: &str, new: &str) -> bool {
        let mut pools = self.lock();
        if pools.contains_key(new) {
            return false;
        }
        let Some(pool) = pools.remove(name) else { return false };
        let is_exported = AtomicBool::new(pool.is_exported());
        let renamed = PoolThread { name: new.to_owned(), jobs: pool.jobs.clone(), is_exported };
        pools.insert(new.to_owned(), Arc::new(renamed));
        true
    }
}

#[cfg(test)]
mod tests {
    use super::*;
    use crate::dataset::Values;

    fn new(name: &str) -> NewPool {
        let facts = PoolFacts { guid: 1, vdevs: Vec::new(), properties: Values::new() };
        NewPool { name: name.into(), blocks: 1000, clock: 0, facts }
    }

    #[test]
    fn a_pool_is_made_once_and_found_by_its_datasets() {
        let world = World::default();
        assert!(world.create(new("tank")).unwrap().is_some());
        assert!(world.create(new("tank")).unwrap().is_none());
        assert_eq!(world.pool_of("tank/a@b").unwrap().name, "tank");
        assert!(world.pool_of("other").is_none());
        world.pool_of("tank").unwrap().set_exported(true);
        assert!(world.pool_of("tank").is_none() && world.any_pool("tank").is_some());
    }

    #[test]
    fn a_job_that_panics_ends_itself_alone() {
        let world = World::default();
        let pool = world.create(new("tank")).unwrap().unwrap();
        assert!(pool.run(|_| if true { panic!("as wanted") }).is_err());
        assert!(pool.run(|host| host.tree.has("tank")).unwrap());
    }

    #[test]
    fn a_pool_of_no_blocks_is_refused() {
        let world = World::default();
        assert_eq!(world.create(NewPool { blocks: 0, ..new("tank") }).err(), Some(Refusal::TooMany));
        assert!(world.any_pool("tank").is_none());
    }
}
