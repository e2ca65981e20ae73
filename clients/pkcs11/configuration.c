/* See configuration.h. */
#define _GNU_SOURCE
#include "configuration.h"

#include <stdio.h>
#include <stdlib.h>
#include <string.h>

#define FILE_NAME "/etc/cca/pkcs11.conf"
#define LONGEST_LINE 1100

/* Takes the option behind a comma. */
static int take_option(struct place *it, const char *option)
{
    if (strcmp(option, "AUDIT") == 0)
        it->is_audited = 1;
    else if (strcmp(option, "DES3") == 0)
        it->shows_des3 = 1;
    else
        return -1;
    return 0;
}

static int is_role(const char *text)
{
    size_t length = strspn(text, "ABCDEFGHIJKLMNOPQRSTUVWXYZ0123456789");
    return length >= 1 && length <= 8 && text[length] == '\0' && (text[0] < '0' || text[0] > '9');
}

/* Reads PATH=ROLE,OPTION.. of LENGTH bytes. */
static int read_place(struct place *it, const char *text, size_t length)
{
    char word[LONGEST_LINE], *role, *option, *rest = NULL;
    memset(it, 0, sizeof *it);
    if (length >= sizeof word)
        return -1;
    memcpy(word, text, length);
    word[length] = '\0';
    role = strrchr(word, '=');
    if (!role || role == word || (size_t)(role - word) >= sizeof it->path)
        return -1;
    memcpy(it->path, word, (size_t)(role - word));
    role = strtok_r(role + 1, ",", &rest);
    if (!role || !is_role(role))
        return -1;
    strcpy(it->role, role);
    while ((option = strtok_r(NULL, ",", &rest)) != NULL)
        if (take_option(it, option) != 0)
            return -1;
    return 0;
}

static CK_RV add_place(struct place *places, CK_ULONG *count, const char *text, size_t length)
{
    if (length == 0)
        return CKR_OK;
    if (*count == MOST_SLOTS || read_place(&places[*count], text, length) != 0)
        return CKR_GENERAL_ERROR;
    ++*count;
    return CKR_OK;
}

static CK_RV read_words(struct place *places, CK_ULONG *count, const char *words)
{
    CK_RV rv = CKR_OK;
    while (rv == CKR_OK && *words) {
        size_t length = strcspn(words, ":");
        rv = add_place(places, count, words, length);
        words += length + (words[length] == ':');
    }
    return rv;
}

static CK_RV read_lines(struct place *places, CK_ULONG *count, FILE *file)
{
    char line[LONGEST_LINE];
    CK_RV rv = CKR_OK;
    while (rv == CKR_OK && fgets(line, sizeof line, file)) {
        size_t length = strcspn(line, "\n");
        if (line[length] != '\n' && !feof(file))
            rv = CKR_GENERAL_ERROR;
        else if (line[0] != '#')
            rv = add_place(places, count, line, length);
    }
    return rv;
}

CK_RV configuration_read(struct place places[MOST_SLOTS], CK_ULONG *count)
{
    const char *words = secure_getenv("CCA_PKCS11");
    FILE *file;
    CK_RV rv;
    *count = 0;
    if (words)
        return read_words(places, count, words);
    file = fopen(FILE_NAME, "re");
    if (!file)
        return CKR_OK; /* no slots */
    rv = read_lines(places, count, file);
    fclose(file);
    return rv;
}

/* A program with more rights than its caller doesn't trust the variables, nor the path. */
void configuration_program(char program[LONGEST_PROGRAM])
{
    const char *named = secure_getenv("CCA");
    strcpy(program, secure_getenv("PATH") ? "cca" : "/usr/bin/cca");
    if (!named || !*named || strlen(named) >= LONGEST_PROGRAM)
        return;
    if (!strchr(named, '/') || !realpath(named, program))
        strcpy(program, named);
}
