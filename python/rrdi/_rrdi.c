/* SPDX-License-Identifier: MIT OR Apache-2.0 */
/* Calls the C library for Python: what by_ctypes.py does, and samples and rows in numbers; and takes the lines of rrdi-feed.
 * extension.py loads it.
 *
 * During a call the interpreter's lock is free, and what the call lends to the library belongs to it alone. A fork has to wait
 * for calls and to close files, so all that run and all that are open are in lists. Of such a list, and of an object, nothing is
 * touched without the interpreter's lock, except the library's own struct of an open file, which has a lock of its own: that is
 * only held while the interpreter's lock is free, so it never waits for Python. */
#define PY_SSIZE_T_CLEAN
#define Py_LIMITED_API 0x03080000
#include <Python.h>

#include <dlfcn.h>
#include <pythread.h>
#include <structmember.h>
#include <sys/stat.h>
#include <time.h>

#include "_numbers.h"
#include "rrdi.h"

#define FIRST_ROOM 16384  /* bytes of output */
#define FIRST_VALUES 4096 /* of a fetch */

/* Does something with each function of the library. */
#define EACH_FUNCTION(DO) \
    DO(run);              \
    DO(batch);            \
    DO(run_file);         \
    DO(batch_file);       \
    DO(open);             \
    DO(run_open);         \
    DO(batch_open);       \
    DO(update_open);      \
    DO(update_many);      \
    DO(fetch_open);       \
    DO(close)
#define POINTER(name) __typeof__(rrdi_##name) *name
#define FIND(name) has_all = has_all && find(handle, "rrdi_" #name, &library->name)

struct library;
struct file;

/* A call that runs now. */
struct call {
    struct call *next;
    const char *path; /* of the file that it uses; NULL while it waits for a fork */
    struct file *opened;
    unsigned long thread;
};

/* What an interpreter has of this module. */
struct state {
    PyObject *library_type, *file_type;
    struct call *calls;
    struct file *files;
    int are_stopped; /* whether a thread forks, so that calls have to ask before they begin */
};

struct library {
    PyObject head;
    PyObject *module; /* keeps the state */
    struct state *state;
    PyObject *answer, *done; /* the type of answers, and the answer that says nothing */
    PyObject *wait;          /* waits for a fork; true if it has to be asked again */
    EACH_FUNCTION(POINTER);
};

struct file {
    PyObject head;
    struct library *library;
    PyObject *path;
    struct file *next;
    unsigned long long device, inode; /* of the file that is open, as Python has found them */
    PyThread_type_lock lock;          /* of the struct */
    struct rrdi_file file;
};

/* What a job does. */
enum what { RUN,
            BATCH,
            RUN_FILE,
            BATCH_FILE,
            OPEN,
            RUN_OPEN,
            BATCH_OPEN,
            UPDATE,
            MANY,
            FETCH,
            CLOSE };

/* What is in the place of a file in memory that is not there. */
static char no_data[1];

/* A call of the library: what it lends, and what comes back. */
struct job {
    struct call call;
    struct library *library;
    struct file *opened;
    enum what what;
    struct bytes path, words, data;
    int syncs;
    bool is_gone; /* the open file is not the one at its path any longer */
    unsigned long long now, wait;
    uint8_t *output, *more_output, *new_file;
    uint64_t *refused;
    size_t output_room, file_room, refused_room, values_room;
    const struct sample *sample;
    uint64_t *times; /* of many samples, which have so many values each */
    struct rrdi_value *many;
    size_t count, sources, stored;
    unsigned function;
    unsigned long long resolution, start, end;
    struct rrdi_rows rows;
    struct rrdi_value *values;
    struct rrdi_answer *answer;
};

/* ---- Calls */

static void forget_call(struct state *state, struct call *call) {
    for (struct call **at = &state->calls; *at; at = &(*at)->next)
        if (*at == call) {
            *at = call->next;
            return;
        }
}

/* Enters a call into the list. Waits while another thread forks. Returns whether no exception came. */
static bool begin(struct job *job) {
    struct state *state = job->library->state;
    const char *path = job->path.at;
    job->call = (struct call){state->calls, path, job->opened, PyThread_get_thread_ident()};
    state->calls = &job->call;
    while (state->are_stopped) {
        job->call.path = NULL;
        PyObject *again = PyObject_CallObject(job->library->wait, NULL);
        job->call.path = path;
        int is_again = again ? PyObject_IsTrue(again) : -1;
        Py_XDECREF(again);
        if (is_again < 0) {
            forget_call(state, &job->call);
            return false;
        }
        if (!is_again)
            break;
    }
    return true;
}

/* Replaces a room that is too small. Returns whether there is memory. */
static bool grow(void *room_at, size_t *length, uint64_t needed, size_t size) {
    void *room;
    if (needed <= *length)
        return true;
    memcpy(&room, room_at, sizeof room);
    free(room);
    room = malloc(needed * size);
    memcpy(room_at, &room, sizeof room);
    *length = room ? needed : 0;
    return room;
}

/* Enlarges what was too small for the answer. Returns whether there is memory. */
static bool grow_all(struct job *job) {
    bool has_all = (!job->new_file || grow(&job->new_file, &job->file_room, job->answer->file_length, 1)) &&
                   (!job->values || grow(&job->values, &job->values_room, job->rows.count * job->rows.sources,
                                         sizeof *job->values));
    if (job->answer->output_needed > job->output_room) {
        has_all = grow(&job->more_output, &job->output_room, job->answer->output_needed, 1) && has_all;
        job->output = job->more_output;
    }
    return has_all;
}

/* Makes an answer of Python's. */
static PyObject *answered(const struct job *job) {
    const struct rrdi_answer *answer = job->answer;
    bool has_file = job->new_file && answer->is_changed;
    Py_ssize_t length = (Py_ssize_t)answer->output_length;
    uint64_t count = !job->refused ? 0 : answer->refused < job->refused_room ? answer->refused
                                                                             : job->refused_room;
    if (!answer->fault && !length && !count && !has_file) {
        Py_INCREF(job->library->done);
        return job->library->done;
    }
    PyObject *refused = PyTuple_New((Py_ssize_t)count);
    for (uint64_t at = 0; refused && at < count; at++)
        PyTuple_SetItem(refused, (Py_ssize_t)at, PyLong_FromUnsignedLongLong(job->refused[at]));
    if (PyErr_Occurred()) /* there was no memory for a number */
        Py_CLEAR(refused);
    return !refused ? NULL
                    : PyObject_CallFunction(job->library->answer, "IIKy#Ny#y#", (unsigned)answer->fault,
                                            (unsigned)answer->system_error, (unsigned long long)answer->at, (char *)job->output,
                                            length, refused, has_file ? (char *)job->new_file : NULL,
                                            has_file ? (Py_ssize_t)answer->file_length : 0,
                                            (char *)answer->explanation, (Py_ssize_t)answer->explanation_length);
}

static void free_rooms(struct job *job) {
    free(job->more_output);
    free(job->new_file);
    free(job->refused);
    free(job->values);
    free(job->times);
    free(job->many);
}

/* Checks whether a file is open, and is the one at its path. */
static bool is_current(const struct job *job) {
    struct stat found;
    const struct file *opened = job->opened;
    return opened->file.is_open && !stat(job->path.at, &found) && found.st_dev == opened->device && found.st_ino == opened->inode;
}

#define BYTES(part) (const uint8_t *)(part).at, (size_t)(part).length
#define PATH job->path.at, (size_t)job->path.length
#define OUTPUT job->output, job->output_room
#define IN_MEMORY job->data.at != no_data, BYTES(job->data), BYTES(job->words), job->now, job->new_file, job->file_room, OUTPUT
#define AT_PATH PATH, BYTES(job->words), job->now, job->wait, job->syncs, OUTPUT
#define REFUSED job->refused, job->refused_room

/* Calls the library once. A fast way is none if the file has to be opened anew. */
static void call_library(struct job *job) {
    const struct library *library = job->library;
    struct rrdi_file *file = job->opened ? &job->opened->file : NULL;
    struct rrdi_answer *answer = job->answer;
    job->is_gone = (job->what == UPDATE || job->what == MANY || job->what == FETCH) && !is_current(job);
    if (job->is_gone)
        return;
    switch (job->what) {
    case RUN: library->run(IN_MEMORY, answer); break;
    case BATCH: library->batch(IN_MEMORY, REFUSED, answer); break;
    case RUN_FILE: library->run_file(AT_PATH, answer); break;
    case BATCH_FILE: library->batch_file(AT_PATH, REFUSED, answer); break;
    case OPEN: library->open(PATH, job->wait, job->syncs, file, OUTPUT, answer); break;
    case BATCH_OPEN: library->batch_open(file, BYTES(job->words), job->now, OUTPUT, REFUSED, answer); break;
    case UPDATE:
        if (job->sample) {
            uint64_t time = job->sample->is_now ? job->now : job->sample->time;
            library->update_open(file, time, job->sample->values, job->sample->count, OUTPUT, answer);
            break;
        }
        /* fall through */
    case RUN_OPEN: library->run_open(file, BYTES(job->words), job->now, OUTPUT, answer); break;
    case MANY:
        library->update_many(file, job->times, job->many, job->count, job->sources, &job->stored, OUTPUT, answer);
        break;
    case FETCH:
        library->fetch_open(file, job->function, job->resolution, job->start, job->end, &job->rows, job->values, job->values_room,
                            OUTPUT, answer);
        break;
    case CLOSE: library->close(file); break;
    }
}

/* Runs a job, again if there was too little room. Returns None for a job that Python has to do. */
static PyObject *perform(struct job *job) {
    uint8_t first[FIRST_ROOM];
    struct rrdi_answer answer; /* its long explanation is not cleared for each call */
    bool has_memory = true, is_again = false;
    PyObject *found = NULL;
    memset(&answer, 0, offsetof(struct rrdi_answer, explanation));
    job->answer = &answer;
    job->output = first;
    job->output_room = sizeof first;
    if (begin(job)) {
        do {
            PyThread_type_lock lock = job->opened ? job->opened->lock : NULL;
            PyThreadState *thread = PyEval_SaveThread();
            if (lock)
                PyThread_acquire_lock(lock, WAIT_LOCK);
            call_library(job);
            if (lock)
                PyThread_release_lock(lock);
            is_again = !job->is_gone && answer.fault == RRDI_NO_ROOM;
            has_memory = !is_again || grow_all(job);
            PyEval_RestoreThread(thread);
        } while (is_again && has_memory);
        forget_call(job->library->state, &job->call);
        if (!has_memory)
            PyErr_NoMemory();
        else if (job->is_gone || (job->values && job->answer->fault))
            Py_INCREF(found = Py_None);
        else
            found = job->values ? rows_of(&job->rows, job->values) : answered(job);
    }
    free_rooms(job);
    return found;
}

/* Runs a batch, which has room for as many numbers of refused lines as it has lines. */
static PyObject *perform_batch(struct job *job) {
    size_t lines = 1;
    for (const char *at = job->words.at, *end = at + job->words.length; (at = memchr(at, '\n', (size_t)(end - at))); at++)
        lines++;
    if (grow(&job->refused, &job->refused_room, lines, sizeof *job->refused))
        return perform(job);
    free_rooms(job);
    return PyErr_NoMemory();
}

/* ---- Open files */

static struct job job_on(PyObject *file, enum what what) {
    struct file *opened = (struct file *)file;
    return (struct job){.opened = opened, .library = opened->library, .what = what, .path = {PyBytes_AsString(opened->path), 0}};
}

static PyObject *file_run(PyObject *self, PyObject *given) {
    struct job job = job_on(self, RUN_OPEN);
    return PyArg_ParseTuple(given, "y#K:run", &job.words.at, &job.words.length, &job.now) ? perform(&job) : NULL;
}

static PyObject *file_batch(PyObject *self, PyObject *given) {
    struct job job = job_on(self, BATCH_OPEN);
    return PyArg_ParseTuple(given, "y#K:batch", &job.words.at, &job.words.length, &job.now) ? perform_batch(&job) : NULL;
}

static uint64_t seconds_now(void) {
    struct timespec found;
    clock_gettime(CLOCK_REALTIME, &found);
    return found.tv_sec > 0 ? (uint64_t)found.tv_sec : 0;
}

/* Adds samples, a tuple, if they are in numbers or texts. `now` may be None, for the clock. Returns None if they have to be added
 * by words, or the file has to be opened anew. */
static PyObject *file_update(PyObject *self, PyObject *given) {
    struct job job = job_on(self, UPDATE);
    struct sample sample = {0};
    PyObject *samples, *now, *found;
    if (!PyArg_ParseTuple(given, "O!O:update", &PyTuple_Type, &samples, &now))
        return NULL;
    job.now = now == Py_None ? seconds_now() : PyLong_AsUnsignedLongLong(now);
    if (PyErr_Occurred()) { /* a time before 1970 */
        PyErr_Clear();
        Py_RETURN_NONE;
    }
    PyObject *only = PyTuple_Size(samples) == 1 ? PyTuple_GetItem(samples, 0) : Py_None;
    if (PyUnicode_CheckExact(only) ? read_text(only, &sample) : read_sample(only, &sample))
        job.sample = &sample;
    else if (!(job.words = update_of(samples)).at)
        Py_RETURN_NONE;
    found = perform(&job);
    free(job.words.at);
    return found;
}

/* Reads samples from one on, up to the first that is not in numbers or texts, or has another number of values. Returns whether there
 * are some. */
static bool read_many(PyObject *samples, Py_ssize_t first, struct job *job) {
    size_t count = (size_t)(PyTuple_Size(samples) - first), at;
    for (at = 0; at < count; at++) {
        struct sample sample = {0};
        PyObject *given = PyTuple_GetItem(samples, first + (Py_ssize_t)at);
        if (!(PyUnicode_CheckExact(given) ? read_text(given, &sample) : read_sample(given, &sample)))
            break;
        if (!at) {
            job->sources = sample.count;
            job->times = calloc(count, sizeof *job->times);
            job->many = calloc(count * sample.count, sizeof *job->many);
        }
        if (!job->times || !job->many)
            return false;
        if (sample.count != job->sources)
            break;
        job->times[at] = sample.is_now ? job->now : sample.time;
        memcpy(job->many + at * job->sources, sample.values, job->sources * sizeof *job->many);
    }
    PyErr_Clear(); /* of the sample that ended it */
    job->count = at;
    return at;
}

/* Adds the samples of a tuple from one on, each as a change of its own, up to the first that is refused. Returns the answer and how
 * many were stored; None if they have to be added one by one. */
static PyObject *file_update_many(PyObject *self, PyObject *given) {
    struct job job = job_on(self, MANY);
    PyObject *samples, *now;
    Py_ssize_t first;
    if (!PyArg_ParseTuple(given, "O!nO:update_many", &PyTuple_Type, &samples, &first, &now))
        return NULL;
    job.now = now == Py_None ? seconds_now() : PyLong_AsUnsignedLongLong(now);
    if (PyErr_Occurred() || first < 0 || !read_many(samples, first, &job)) {
        PyErr_Clear();
        free_rooms(&job);
        Py_RETURN_NONE;
    }
    PyObject *answer = perform(&job);
    if (!answer || answer == Py_None)
        return answer;
    return Py_BuildValue("Nn", answer, (Py_ssize_t)job.stored);
}

/* Fetches rows in numbers: the start, the step and the rows. Returns None if it has to be done by words. */
static PyObject *file_fetch(PyObject *self, PyObject *given) {
    struct job job = job_on(self, FETCH);
    if (!PyArg_ParseTuple(given, "IKKK:fetch", &job.function, &job.resolution, &job.start, &job.end))
        return NULL;
    return grow(&job.values, &job.values_room, FIRST_VALUES, sizeof *job.values) ? perform(&job) : PyErr_NoMemory();
}

static PyObject *file_is_current(PyObject *self, PyObject *nothing) {
    struct job job = job_on(self, CLOSE);
    (void)nothing;
    PyThreadState *thread = PyEval_SaveThread();
    bool found = is_current(&job);
    PyEval_RestoreThread(thread);
    return PyBool_FromLong(found);
}

static PyObject *file_close(PyObject *self, PyObject *nothing) {
    struct job job = job_on(self, CLOSE);
    PyObject *done = perform(&job);
    (void)nothing;
    Py_XDECREF(done);
    if (!done)
        return NULL;
    Py_RETURN_NONE;
}

/* Leaves the file to the parent. Called in a forked child, where nobody else can have the lock. The memory of the database stays
 * with the child: to free it, the library would release the parent's lock. */
static PyObject *file_forget(PyObject *self, PyObject *nothing) {
    struct file *file = (struct file *)self;
    PyThread_type_lock lock = PyThread_allocate_lock();
    (void)nothing;
    if (!lock)
        return PyErr_NoMemory();
    file->lock = lock;
    file->file = (struct rrdi_file){0};
    Py_RETURN_NONE;
}

static struct file *new_file(struct library *library, PyObject *path) {
    PyThread_type_lock lock = PyThread_allocate_lock();
    struct file *file = lock ? PyObject_New(struct file, (PyTypeObject *)library->state->file_type) : NULL;
    if (!file) {
        if (lock)
            PyThread_free_lock(lock);
        PyErr_NoMemory();
        return NULL;
    }
    Py_INCREF(file->library = library);
    Py_INCREF(file->path = path);
    file->lock = lock;
    file->device = file->inode = 0;
    file->file = (struct rrdi_file){0};
    file->next = library->state->files;
    library->state->files = file;
    return file;
}

/* Frees an object and its reference to its type. */
static void free_object(PyObject *object) {
    PyObject *type = (PyObject *)Py_TYPE(object);
    PyObject_Free(object);
    Py_DECREF(type);
}

/* Closes a file that nobody uses any longer. No Python runs here, so a thread that forks is not waited for; a child gives the file
 * of this call up. */
static void file_dealloc(PyObject *self) {
    struct file *file = (struct file *)self;
    struct state *state = file->library->state;
    struct call call = {state->calls, PyBytes_AsString(file->path), NULL, PyThread_get_thread_ident()};
    for (struct file **at = &state->files; *at; at = &(*at)->next)
        if (*at == file) {
            *at = file->next;
            break;
        }
    if (file->file.is_open) {
        PyObject *type, *value, *trace; /* of an exception, which may be the reason why nobody uses the file */
        PyErr_Fetch(&type, &value, &trace);
        state->calls = &call;
        PyThreadState *thread = PyEval_SaveThread();
        file->library->close(&file->file);
        PyEval_RestoreThread(thread);
        forget_call(state, &call);
        PyErr_Restore(type, value, trace);
    }
    PyThread_free_lock(file->lock);
    Py_DECREF(file->path);
    Py_DECREF(file->library);
    free_object(self);
}

/* ---- The library */

/* Reads a file in memory or None, words and the time, and makes room for the new file. */
static bool read_in_memory(PyObject *given, const char *format, struct job *job) {
    if (!PyArg_ParseTuple(given, format, &job->data.at, &job->data.length, &job->words.at, &job->words.length, &job->now))
        return false;
    if (!job->data.at)
        job->data = (struct bytes){no_data, 0};
    if (grow(&job->new_file, &job->file_room, (uint64_t)job->data.length + FIRST_ROOM, 1))
        return true;
    PyErr_NoMemory();
    return false;
}

static PyObject *library_run(PyObject *self, PyObject *given) {
    struct job job = {.library = (struct library *)self, .what = RUN};
    return read_in_memory(given, "z#y#K:run", &job) ? perform(&job) : NULL;
}

static PyObject *library_batch(PyObject *self, PyObject *given) {
    struct job job = {.library = (struct library *)self, .what = BATCH};
    return read_in_memory(given, "z#y#K:batch", &job) ? perform_batch(&job) : NULL;
}

/* Reads a path, which has no zero byte, words, the time, and how the file is opened. */
static bool read_at_path(PyObject *given, const char *format, struct job *job) {
    return PyArg_ParseTuple(given, format, &job->path.at, &job->path.length, &job->words.at, &job->words.length, &job->now,
                            &job->wait, &job->syncs);
}

static PyObject *library_run_file(PyObject *self, PyObject *given) {
    struct job job = {.library = (struct library *)self, .what = RUN_FILE};
    return read_at_path(given, "y#y#KKp:run_file", &job) ? perform(&job) : NULL;
}

static PyObject *library_batch_file(PyObject *self, PyObject *given) {
    struct job job = {.library = (struct library *)self, .what = BATCH_FILE};
    return read_at_path(given, "y#y#KKp:batch_file", &job) ? perform_batch(&job) : NULL;
}

/* Adds samples, a tuple, to the file at a path. Returns None if they have to be added by words. */
static PyObject *library_update_file(PyObject *self, PyObject *given) {
    struct job job = {.library = (struct library *)self, .what = RUN_FILE};
    PyObject *samples, *found;
    if (!PyArg_ParseTuple(given, "y#O!KKp:update_file", &job.path.at, &job.path.length, &PyTuple_Type, &samples, &job.now,
                          &job.wait, &job.syncs))
        return NULL;
    if (!(job.words = update_of(samples)).at)
        Py_RETURN_NONE;
    found = perform(&job);
    free(job.words.at);
    return found;
}

/* Returns the answer, and the open file or None. */
static PyObject *library_open(PyObject *self, PyObject *given) {
    struct job job = {.library = (struct library *)self, .what = OPEN};
    PyObject *path, *answer, *found = NULL;
    if (!PyArg_ParseTuple(given, "SKp:open", &path, &job.wait, &job.syncs) || !(job.opened = new_file(job.library, path)))
        return NULL;
    PyBytes_AsStringAndSize(path, &job.path.at, &job.path.length);
    if ((answer = perform(&job)))
        found = Py_BuildValue("NO", answer, job.opened->file.is_open ? (PyObject *)job.opened : Py_None);
    Py_DECREF(job.opened);
    return found;
}

static void library_dealloc(PyObject *self) {
    struct library *library = (struct library *)self;
    Py_DECREF(library->answer);
    Py_DECREF(library->done);
    Py_DECREF(library->wait);
    Py_DECREF(library->module);
    free_object(self);
}

/* ---- The module */

/* Puts the address of a function where a pointer is. Returns whether the library has it. */
static bool find(void *handle, const char *name, void *pointer) {
    void *found = dlsym(handle, name);
    memcpy(pointer, &found, sizeof found);
    if (!found)
        PyErr_SetString(PyExc_OSError, dlerror());
    return found;
}

/* Loads the library at a path. It stays loaded. */
static PyObject *module_load(PyObject *module, PyObject *given) {
    struct state *state = PyModule_GetState(module);
    PyObject *path, *answer, *done, *wait;
    if (!PyArg_ParseTuple(given, "O&OOO:load", PyUnicode_FSConverter, &path, &answer, &done, &wait))
        return NULL;
    void *handle = dlopen(PyBytes_AsString(path), RTLD_NOW | RTLD_LOCAL);
    Py_DECREF(path);
    if (!handle)
        return PyErr_Format(PyExc_OSError, "%s", dlerror());
    struct library *library = PyObject_New(struct library, (PyTypeObject *)state->library_type);
    if (!library)
        return NULL;
    Py_INCREF(library->module = module);
    Py_INCREF(library->answer = answer);
    Py_INCREF(library->done = done);
    Py_INCREF(library->wait = wait);
    library->state = state;
    bool has_all = true;
    EACH_FUNCTION(FIND);
    if (has_all)
        return (PyObject *)library;
    Py_DECREF(library);
    return NULL;
}

/* Says whether calls have to wait for a fork before they begin. */
static PyObject *module_stop(PyObject *module, PyObject *given) {
    int are_stopped = PyObject_IsTrue(given);
    if (are_stopped < 0)
        return NULL;
    ((struct state *)PyModule_GetState(module))->are_stopped = are_stopped;
    Py_RETURN_NONE;
}

/* Returns the path, the open file or None, and the thread of each call on a file that runs. */
static PyObject *module_running(PyObject *module, PyObject *nothing) {
    PyObject *list = PyList_New(0);
    (void)nothing;
    for (struct call *call = ((struct state *)PyModule_GetState(module))->calls; list && call; call = call->next) {
        PyObject *opened = call->opened ? (PyObject *)call->opened : Py_None;
        PyObject *one = call->path ? Py_BuildValue("yOk", call->path, opened, call->thread) : NULL;
        if (call->path && (!one || PyList_Append(list, one)))
            Py_CLEAR(list);
        Py_XDECREF(one);
    }
    return list;
}

/* Returns the files that are not freed yet. */
static PyObject *module_files(PyObject *module, PyObject *nothing) {
    PyObject *list = PyList_New(0);
    (void)nothing;
    for (struct file *file = ((struct state *)PyModule_GetState(module))->files; list && file; file = file->next)
        if (PyList_Append(list, (PyObject *)file))
            Py_CLEAR(list);
    return list;
}

/* Forgets the calls of other threads, in a forked child, which has no other threads. */
static PyObject *module_forget_calls(PyObject *module, PyObject *nothing) {
    (void)nothing;
    ((struct state *)PyModule_GetState(module))->calls = NULL;
    Py_RETURN_NONE;
}

/* Reads the text that a fetch has printed. Returns None if Python has to read it. */
static PyObject *module_table(PyObject *module, PyObject *given) {
    PyObject *text = PyUnicode_AsUTF8String(given), *found;
    (void)module;
    if (!text)
        return NULL;
    if (!(found = table_of(PyBytes_AsString(text))))
        Py_INCREF(found = Py_None);
    Py_DECREF(text);
    return found;
}

/* Takes lines from an iterator, each with a further sample of a file that is in a dict, up to the first other one. Returns that
 * one; None if there is none. */
static PyObject *module_further(PyObject *module, PyObject *given) {
    PyObject *held, *lines, *line;
    Py_ssize_t longest;
    (void)module;
    if (!PyArg_ParseTuple(given, "O!On:further", &PyDict_Type, &held, &lines, &longest))
        return NULL;
    while ((line = PyIter_Next(lines))) {
        if (!take_further(held, line, longest))
            return line;
        Py_DECREF(line);
    }
    if (PyErr_Occurred())
        return NULL;
    Py_RETURN_NONE;
}

/* Says whether the samples of a list are surely in the order of their times. */
static PyObject *module_are_ordered(PyObject *module, PyObject *samples) {
    (void)module;
    return PyBool_FromLong(PyList_CheckExact(samples) && are_ordered(samples));
}

/* Only `load` and `open` make objects of the types. */
static PyObject *refuse_new(PyTypeObject *type, PyObject *given, PyObject *named) {
    (void)given, (void)named;
    return PyErr_Format(PyExc_TypeError, "cannot create %R", type);
}

static PyMethodDef file_methods[] = {
    {"run", file_run, METH_VARARGS, NULL},
    {"batch", file_batch, METH_VARARGS, NULL},
    {"update", file_update, METH_VARARGS, NULL},
    {"update_many", file_update_many, METH_VARARGS, NULL},
    {"fetch", file_fetch, METH_VARARGS, NULL},
    {"is_current", file_is_current, METH_NOARGS, NULL},
    {"close", file_close, METH_NOARGS, NULL},
    {"forget", file_forget, METH_NOARGS, NULL},
    {NULL, NULL, 0, NULL}};
static PyMemberDef file_members[] = {
    {"path", T_OBJECT_EX, offsetof(struct file, path), READONLY, NULL},
    {"is_open", T_BOOL, offsetof(struct file, file.is_open), READONLY, NULL},
    {"device", T_ULONGLONG, offsetof(struct file, device), 0, NULL},
    {"inode", T_ULONGLONG, offsetof(struct file, inode), 0, NULL},
    {NULL, 0, 0, 0, NULL}};
static PyType_Slot file_slots[] = {{Py_tp_new, refuse_new}, {Py_tp_dealloc, file_dealloc}, {Py_tp_methods, file_methods}, {Py_tp_members, file_members}, {0, NULL}};
static PyType_Spec file_spec = {"rrdi._rrdi.File", sizeof(struct file), 0, Py_TPFLAGS_DEFAULT, file_slots};

static PyMethodDef library_methods[] = {
    {"run", library_run, METH_VARARGS, NULL},
    {"batch", library_batch, METH_VARARGS, NULL},
    {"run_file", library_run_file, METH_VARARGS, NULL},
    {"batch_file", library_batch_file, METH_VARARGS, NULL},
    {"update_file", library_update_file, METH_VARARGS, NULL},
    {"open", library_open, METH_VARARGS, NULL},
    {NULL, NULL, 0, NULL}};
static PyType_Slot library_slots[] = {
    {Py_tp_new, refuse_new}, {Py_tp_dealloc, library_dealloc}, {Py_tp_methods, library_methods}, {0, NULL}};
static PyType_Spec library_spec = {"rrdi._rrdi.Library", sizeof(struct library), 0, Py_TPFLAGS_DEFAULT, library_slots};

static int prepare(PyObject *module) {
    struct state *state = PyModule_GetState(module);
    *state = (struct state){.library_type = PyType_FromSpec(&library_spec)};
    state->file_type = state->library_type ? PyType_FromSpec(&file_spec) : NULL;
    return state->file_type ? PyModule_AddStringConstant(module, "version", RRDI_VERSION) : -1;
}

static void end_of_module(void *module) {
    struct state *state = PyModule_GetState(module);
    if (state) {
        Py_CLEAR(state->library_type);
        Py_CLEAR(state->file_type);
    }
}

static PyMethodDef module_methods[] = {
    {"load", module_load, METH_VARARGS, NULL},
    {"stop", module_stop, METH_O, NULL},
    {"running", module_running, METH_NOARGS, NULL},
    {"files", module_files, METH_NOARGS, NULL},
    {"forget_calls", module_forget_calls, METH_NOARGS, NULL},
    {"table", module_table, METH_O, NULL},
    {"further", module_further, METH_VARARGS, NULL},
    {"are_ordered", module_are_ordered, METH_O, NULL},
    {NULL, NULL, 0, NULL}};
static PyModuleDef_Slot module_slots[] = {{Py_mod_exec, prepare}, {0, NULL}, {0, NULL}};
static PyModuleDef module_definition = {
    PyModuleDef_HEAD_INIT, "_rrdi", NULL, sizeof(struct state), module_methods, module_slots, NULL, NULL, end_of_module};

/* From 3.12 on, an interpreter with a lock of its own loads what says that it may be there (Py_mod_multiple_interpreters is
 * Py_MOD_PER_INTERPRETER_GIL_SUPPORTED). Earlier ones refuse to hear it. */
__attribute__((visibility("default"))) PyMODINIT_FUNC PyInit__rrdi(void) { /* which 3.8 does not show by itself */
    int major, minor;
    if (sscanf(Py_GetVersion(), "%d.%d", &major, &minor) == 2 && (major > 3 || minor >= 12))
        module_slots[1] = (PyModuleDef_Slot){3, (void *)2};
    return PyModuleDef_Init(&module_definition);
}
