/* Messages on standard error, each after the program's name, and the exit statuses. */
#ifndef HOST_SAY_H
#define HOST_SAY_H

/* Exit statuses, in addition to 0 and the controller's causes 1 to 7. The numbers are those of sysexits.h. */
enum {
    STATUS_USAGE = 64,     /* invalid options */
    STATUS_DATA = 65,      /* a file that is not what it should be */
    STATUS_NO_INPUT = 66,  /* no such interface, no such file */
    STATUS_SILENT = 69,    /* a station does not answer a call, or has no address for it */
    STATUS_SOFTWARE = 70,  /* the library and the program do not fit */
    STATUS_SYSTEM = 71,    /* the system refuses a timer or a socket */
    STATUS_CREATE = 73,    /* a file cannot be made */
    STATUS_INPUT = 74,     /* a file cannot be read or written */
    STATUS_IN_USE = 75,    /* another process has it */
    STATUS_PERMISSION = 77 /* a capability is missing */
};

/* Sets the name that messages begin with, and returns it. */
void say_as(const char *program);
const char *say_name(void);

/* Writes a line on standard error. */
void say(const char *format, ...) __attribute__((format(printf, 1, 2)));

/* Writes a line on standard error, and ends the program with this status. */
_Noreturn void fail(int status, const char *format, ...) __attribute__((format(printf, 2, 3)));

#endif
