/* Leaves out PostgreSQL's catalogs of translated messages. Preloaded into a backend with
   AddressSanitizer, where glibc's functions that choose a catalog wait for a lock that nobody has.
   initdb and the server wait in setlocale then, and can't run with it. */
char *bindtextdomain(const char *domain, const char *folder) {
    (void)domain;
    return (char *)folder;
}

char *bind_textdomain_codeset(const char *domain, const char *encoding) {
    (void)domain;
    return (char *)encoding;
}
