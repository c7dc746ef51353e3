/* How a call reaches the module, which sees nothing but its own memory. What a caller's pointers lead to is copied
 * there before the call, and what the call may write is copied back. There is one memory, so one call runs at a time. */
#ifndef DINE_LOANS_H
#define DINE_LOANS_H
#include "../dine.h"
#include "module.h"
#include <pthread.h>

enum {
    DESK = 1024, /* bytes in the module's memory for the arguments of a call; longer ones get memory of their own */
    MOST = 3     /* no call has more pointers */
};

static Z_dine_ffi_instance_t module;
static bool is_made;
static u64 desk;
static pthread_mutex_t lock = PTHREAD_MUTEX_INITIALIZER;

/* What was copied into the module's memory. */
typedef struct loan {
    void *from;
    u64 at;
    size_t size;
    bool is_handle, is_written, is_on_desk;
} loan;

typedef struct call {
    loan loans[MOST];
    int count;
    size_t used;
    bool fits; /* whether there was memory for all arguments */
} call;

static uint8_t *in_module(u64 at) { return Z_dine_ffiZ_memory(&module)->data + at; }

static void take_lock(void) { pthread_mutex_lock(&lock); }
static void give_lock(void) { pthread_mutex_unlock(&lock); }

/* Begins a call. The first one makes the module. A child process gets the lock free. */
static call begin(void) {
    take_lock();
    if (!is_made) {
        Z_dine_ffi_init_module();
        Z_dine_ffi_instantiate(&module);
        pthread_atfork(take_lock, give_lock, give_lock);
        is_made = true;
    }
    if (!desk)
        desk = Z_dine_ffiZ_room(&module, DESK);
    call it; /* only what is read: to set all of it to zero takes as long as the rest */
    it.count = 0;
    it.used = 0;
    it.fits = desk != 0;
    return it;
}

static u64 room_for(call *it, loan loan) {
    size_t size = (loan.size + 15) / 16 * 16;
    loan.is_on_desk = loan.size <= DESK && size <= DESK - it->used;
    loan.at = loan.is_on_desk ? desk + it->used : Z_dine_ffiZ_room(&module, loan.size);
    it->used += loan.is_on_desk ? size : 0;
    it->fits = it->fits && loan.at;
    it->loans[it->count++] = loan;
    return loan.at;
}

/* Returns where the module has a copy of these bytes. */
static u64 lend(call *it, const void *from, size_t size, bool is_written) {
    u64 at = room_for(it, (loan){.from = (void *)from, .size = size, .is_written = is_written});
    if (it->fits)
        memcpy(in_module(at), from, size);
    return at;
}

/* The same for a handle, whose pointer has 8 bytes there. */
static u64 lend_handle(call *it, dine_handle *from) {
    u64 pointer = (uintptr_t)from->at, at = room_for(it, (loan){.from = from, .size = 16, .is_handle = true});
    if (it->fits) {
        memcpy(in_module(at), &pointer, 8);
        memcpy(in_module(at) + 8, &from->state, 4);
    }
    return at;
}

static void bring_back(const loan *it) {
    if (it->is_handle) {
        dine_handle *handle = it->from;
        u64 pointer;
        memcpy(&pointer, in_module(it->at), 8);
        handle->at = (void *)(uintptr_t)pointer;
        memcpy(&handle->state, in_module(it->at) + 8, 4);
    } else if (it->is_written) {
        memcpy(it->from, in_module(it->at), it->size);
    }
}

/* Ends a call, and returns its answer. */
static int64_t end(call *it, int64_t answer) {
    for (int i = 0; i < it->count; i++) {
        if (it->fits)
            bring_back(&it->loans[i]);
        if (it->loans[i].at && !it->loans[i].is_on_desk)
            Z_dine_ffiZ_leave(&module, it->loans[i].at);
    }
    give_lock();
    return answer;
}

#endif
