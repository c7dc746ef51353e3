/* The part of wasm2c's runtime that the module needs, as static functions, so that a program may have other modules
 * too. The names and types are those of wabt's wasm-rt.h:
 *     Copyright 2018 WebAssembly Community Group participants, under the Apache License, Version 2.0,
 *     http://www.apache.org/licenses/LICENSE-2.0
 * Each access to the memory is checked by a comparison, and there is no handler of a signal. */
#ifndef DINE_WASM_RT_H
#define DINE_WASM_RT_H
#include <stdbool.h>
#include <stdint.h>
#include <stdio.h>
#include <stdlib.h>
#include <string.h>

#if defined(__BYTE_ORDER__) && __BYTE_ORDER__ != __ORDER_LITTLE_ENDIAN__
#error "the numbers in the module's memory have their low byte first, and so must those of this processor"
#endif

#define WASM_RT_MEMCHECK_SIGNAL_HANDLER 0
#define WASM_RT_USE_STACK_DEPTH_COUNT 0
#define LIKELY(x) __builtin_expect(!!(x), 1)
#define UNLIKELY(x) __builtin_expect(!!(x), 0)
#define wasm_rt_memcpy __builtin_memcpy
#define wasm_rt_unreachable __builtin_unreachable

enum { DINE_WASM_PAGE = 65536 };

typedef enum {
    WASM_RT_TRAP_NONE,
    WASM_RT_TRAP_OOB,
    WASM_RT_TRAP_INT_OVERFLOW,
    WASM_RT_TRAP_DIV_BY_ZERO,
    WASM_RT_TRAP_INVALID_CONVERSION,
    WASM_RT_TRAP_UNREACHABLE,
    WASM_RT_TRAP_CALL_INDIRECT,
    WASM_RT_TRAP_UNCAUGHT_EXCEPTION,
    WASM_RT_TRAP_EXHAUSTION
} wasm_rt_trap_t;

typedef enum { WASM_RT_I32, WASM_RT_I64, WASM_RT_F32, WASM_RT_F64, WASM_RT_FUNCREF, WASM_RT_EXTERNREF } wasm_rt_type_t;

typedef struct {
    uint8_t *data;
    uint32_t pages, max_pages;
    uint32_t size; /* in bytes */
} wasm_rt_memory_t;

/* The module has no tables. wasm2c names their types all the same. */
typedef void (*wasm_rt_function_ptr_t)(void);
typedef void *wasm_rt_externref_t;
typedef struct {
    uint32_t func_type;
    wasm_rt_function_ptr_t func;
    void *module_instance;
} wasm_rt_funcref_t;
typedef struct {
    wasm_rt_funcref_t *data;
    uint32_t max_size, size;
} wasm_rt_funcref_table_t;
typedef struct {
    wasm_rt_externref_t *data;
    uint32_t max_size, size;
} wasm_rt_externref_table_t;
#define wasm_rt_externref_null_value NULL

/* The proofs leave one cause: the stack is used up. Then the program ends, as it does if its own is. */
__attribute__((noreturn)) static inline void wasm_rt_trap(wasm_rt_trap_t cause) {
    fprintf(stderr, "dine: the module stopped, cause %d\n", cause);
    abort();
}

static inline bool wasm_rt_is_initialized(void) { return true; }

/* A module that calls no function by its address needs no numbers of types. */
static inline uint32_t wasm_rt_register_func_type(uint32_t params, uint32_t results, ...) {
    (void)params, (void)results;
    return 0;
}

static inline void wasm_rt_allocate_memory(wasm_rt_memory_t *memory, uint32_t pages, uint32_t max_pages) {
    uint8_t *data = calloc(pages, DINE_WASM_PAGE);
    if (!data)
        wasm_rt_trap(WASM_RT_TRAP_OOB);
    *memory = (wasm_rt_memory_t){data, pages, max_pages, pages * DINE_WASM_PAGE};
}

/* Returns how many pages there were, or UINT32_MAX if there can be no more. */
static inline uint32_t wasm_rt_grow_memory(wasm_rt_memory_t *memory, uint32_t more) {
    uint32_t pages = memory->pages;
    if (more > memory->max_pages - pages)
        return UINT32_MAX;
    uint8_t *data = realloc(memory->data, (size_t)(pages + more) * DINE_WASM_PAGE);
    if (!data)
        return UINT32_MAX;
    memset(data + memory->size, 0, (size_t)more * DINE_WASM_PAGE);
    *memory = (wasm_rt_memory_t){data, pages + more, memory->max_pages, (pages + more) * DINE_WASM_PAGE};
    return pages;
}

static inline void wasm_rt_free_memory(wasm_rt_memory_t *memory) { free(memory->data); }

#endif
