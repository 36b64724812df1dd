/* On Arm there is one level: the module's functions are the library's. */

/* Which level is in use: for the command, not for hosts. */
__attribute__((visibility("hidden"))) const char *brothwagon_level(void) { return "aarch64"; }
