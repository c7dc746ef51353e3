//! The standard library with mutexes, condition variables and parking by pthread, and an `Arc` without fences. For
//! bench/sanitize, on Linux on x86-64.
//!
//! Those of std are compiled without the sanitizer: it does not see that they order what two threads do, and reports
//! races that are none. It knows the calls of pthread, and it knows atomics, but no fences.
pub use std::*;

pub mod thread {
    use super::sync::{Arc, Condvar, Mutex};
    pub use std::thread::*;
    use std::time::{Duration, Instant};

    #[derive(Clone)]
    pub struct Thread(Arc<(Mutex<bool>, Condvar)>);

    std::thread_local! {
        static ME: Thread = Thread(Arc::new((Mutex::new(false), Condvar::new())));
    }

    impl Thread {
        pub fn unpark(&self) {
            *self.0 .0.lock().unwrap() = true;
            self.0 .1.notify_all();
        }
    }

    pub fn current() -> Thread {
        ME.with(Thread::clone)
    }

    pub fn park() {
        let me = current();
        let mut has_token = me.0 .0.lock().unwrap();
        while !std::mem::take(&mut *has_token) {
            has_token = me.0 .1.wait(has_token).unwrap();
        }
    }

    /// Sleeps in short pieces, so that no call with a time is needed.
    pub fn park_timeout(time: Duration) {
        let (me, begun) = (current(), Instant::now());
        while !std::mem::take(&mut *me.0 .0.lock().unwrap()) && begun.elapsed() < time {
            std::thread::sleep(Duration::from_micros(10).min(time));
        }
    }
}

pub mod sync {
    pub use std::sync::*;
    use std::cell::UnsafeCell;
    use std::marker::PhantomData;
    use std::ops::{Deref, DerefMut};
    use std::ptr::NonNull;
    use std::sync::atomic::{AtomicUsize, Ordering};

    pub struct Arc<T>(NonNull<(AtomicUsize, T)>);

    // SAFETY: as of that of std.
    unsafe impl<T: Send + Sync> Send for Arc<T> {}
    unsafe impl<T: Send + Sync> Sync for Arc<T> {}

    impl<T> Arc<T> {
        pub fn new(value: T) -> Arc<T> {
            Arc(NonNull::from(Box::leak(Box::new((AtomicUsize::new(1), value)))))
        }

        pub fn ptr_eq(this: &Arc<T>, other: &Arc<T>) -> bool {
            this.0 == other.0
        }

        fn both(&self) -> &(AtomicUsize, T) {
            // SAFETY: it is there until the last one is dropped.
            unsafe { self.0.as_ref() }
        }
    }

    impl<T> Clone for Arc<T> {
        fn clone(&self) -> Arc<T> {
            self.both().0.fetch_add(1, Ordering::Relaxed);
            Arc(self.0)
        }
    }

    impl<T> Deref for Arc<T> {
        type Target = T;
        fn deref(&self) -> &T {
            &self.both().1
        }
    }

    impl<T> Drop for Arc<T> {
        fn drop(&mut self) {
            if self.both().0.fetch_sub(1, Ordering::AcqRel) == 1 {
                // SAFETY: this is the last one, and it was a box.
                drop(unsafe { Box::from_raw(self.0.as_ptr()) });
            }
        }
    }

    // As large as those of glibc, and open if all bytes are 0.
    #[repr(C, align(8))]
    struct RawMutex([u8; 40]);
    #[repr(C, align(8))]
    struct RawCondvar([u8; 48]);

    extern "C" {
        fn pthread_mutex_lock(mutex: *mut RawMutex) -> i32;
        fn pthread_mutex_unlock(mutex: *mut RawMutex) -> i32;
        fn pthread_mutex_destroy(mutex: *mut RawMutex) -> i32;
        fn pthread_cond_wait(condvar: *mut RawCondvar, mutex: *mut RawMutex) -> i32;
        fn pthread_cond_broadcast(condvar: *mut RawCondvar) -> i32;
        fn pthread_cond_destroy(condvar: *mut RawCondvar) -> i32;
    }

    // They do not move while they are in use, so they are boxed.
    pub struct Mutex<T> {
        raw: Box<UnsafeCell<RawMutex>>,
        value: UnsafeCell<T>,
    }

    // SAFETY: whoever has the guard is the only one who has the value.
    unsafe impl<T: Send> Send for Mutex<T> {}
    unsafe impl<T: Send> Sync for Mutex<T> {}

    pub struct MutexGuard<'a, T> {
        mutex: &'a Mutex<T>,
        // Not `Send`: it is unlocked by the thread that locked it.
        here: PhantomData<*const ()>,
    }

    impl<T> Mutex<T> {
        pub fn new(value: T) -> Mutex<T> {
            Mutex { raw: Box::new(UnsafeCell::new(RawMutex([0; 40]))), value: UnsafeCell::new(value) }
        }

        /// Locks it. It is never poisoned.
        pub fn lock(&self) -> LockResult<MutexGuard<'_, T>> {
            // SAFETY: it is open until it is dropped.
            assert_eq!(unsafe { pthread_mutex_lock(self.raw.get()) }, 0);
            Ok(MutexGuard { mutex: self, here: PhantomData })
        }
    }

    impl<T> Drop for Mutex<T> {
        fn drop(&mut self) {
            // SAFETY: nobody has it locked, since a guard borrows it.
            unsafe { pthread_mutex_destroy(self.raw.get()) };
        }
    }

    impl<T> Deref for MutexGuard<'_, T> {
        type Target = T;
        fn deref(&self) -> &T {
            // SAFETY: the mutex is locked by this thread.
            unsafe { &*self.mutex.value.get() }
        }
    }

    impl<T> DerefMut for MutexGuard<'_, T> {
        fn deref_mut(&mut self) -> &mut T {
            // SAFETY: the mutex is locked by this thread.
            unsafe { &mut *self.mutex.value.get() }
        }
    }

    impl<T> Drop for MutexGuard<'_, T> {
        fn drop(&mut self) {
            // SAFETY: the mutex is locked by this thread.
            unsafe { pthread_mutex_unlock(self.mutex.raw.get()) };
        }
    }

    pub struct Condvar(Box<UnsafeCell<RawCondvar>>);

    // SAFETY: any thread may call its calls.
    unsafe impl Send for Condvar {}
    unsafe impl Sync for Condvar {}

    impl Condvar {
        pub fn new() -> Condvar {
            Condvar(Box::new(UnsafeCell::new(RawCondvar([0; 48]))))
        }

        pub fn wait<'a, T>(&self, guard: MutexGuard<'a, T>) -> LockResult<MutexGuard<'a, T>> {
            // SAFETY: both are open, and the mutex is locked by this thread.
            assert_eq!(unsafe { pthread_cond_wait(self.0.get(), guard.mutex.raw.get()) }, 0);
            Ok(guard)
        }

        pub fn notify_all(&self) {
            // SAFETY: it is open.
            unsafe { pthread_cond_broadcast(self.0.get()) };
        }
    }

    impl Drop for Condvar {
        fn drop(&mut self) {
            // SAFETY: nobody waits, since who waits borrows it.
            unsafe { pthread_cond_destroy(self.0.get()) };
        }
    }
}
