/* A holding looks over a text before it hands it on: is it month files on end, and if not, where does it go wrong? */
#include <inttypes.h>
#include <stddef.h>
#include <stdint.h>
#include <stdio.h>
#include <string.h>

#include "rateio.h"

#define NAMES_AND_MONTH "month,ons\n202407,100\n"
#define AGENTS "agent,pb,pv,afs,rfs,pa,ret\n1,1000,0,0,0,0,4\n"
#define USERS "user,kind,ret,ong\n1,2,0,0\n"
#define POINTS "at,tp,tf,dp,df,mp,mf,vp,vf\n1,1000,500,0,0,3,2,3,2\n"
#define MONTH_FILE NAMES_AND_MONTH AGENTS USERS POINTS
/* The same file as an office machine saves it. */
#define OFFICE_NAMES_AND_MONTH "month,ons\r\n202407,100\r\n"
#define OFFICE_AGENTS "agent,pb,pv,afs,rfs,pa,ret\r\n1,1000,0,0,0,0,4\r\n"
#define OFFICE_USERS "user,kind,ret,ong\r\n1,2,0,0\r\n"
#define OFFICE_POINTS "at,tp,tf,dp,df,mp,mf,vp,vf\r\n1,1000,500,0,0,3,2,3,2\r\n"
#define OFFICE_FILE OFFICE_NAMES_AND_MONTH OFFICE_AGENTS OFFICE_USERS OFFICE_POINTS

static void look(const char *what, const char *text, size_t length)
{
    int64_t answer = rateio_check((const uint8_t *)text, length);

    printf("%-28s", what);
    if (answer == RATEIO_CHECK_FILES)
        printf("month files\n");
    else if (answer == RATEIO_CHECK_TOO_LONG)
        printf("too long\n");
    else if ((size_t)answer == length)
        printf("ends too soon, at %" PRId64 "\n", answer);
    else
        printf("byte %" PRId64 " (%02x hexadecimal) is wrong\n", answer, (unsigned char)text[answer]);
}

static void look_over(const char *what, const char *text)
{
    look(what, text, strlen(text));
}

int main(void)
{
    look_over("one file", MONTH_FILE);
    look_over("two files", MONTH_FILE MONTH_FILE);
    look_over("in CR LF", OFFICE_FILE);
    look_over("in CR LF and in LF", OFFICE_FILE NAMES_AND_MONTH OFFICE_AGENTS USERS OFFICE_POINTS);
    look_over("no points", NAMES_AND_MONTH AGENTS USERS "at,tp,tf,dp,df,mp,mf,vp,vf\n");
    look_over("no text", "");
    look_over("no last LF", "month,ons\n202407,100");
    look_over("-0", "month,ons\n202407,-0\n");
    look_over("leading zero", "month,ons\n0202407,100\n");
    look_over("19 digits", "month,ons\n202407,1234567890123456789\n");
    look_over("no column ong", NAMES_AND_MONTH AGENTS "user,kind,ret\n1,2,0\n" POINTS);
    look_over("no value of ong", NAMES_AND_MONTH AGENTS "user,kind,ret,ong\n1,2,0\n" POINTS);
    look_over("a second month line", NAMES_AND_MONTH "202408,100\n");
    look_over("a lone CR", "month,ons\r202407,100\r");
    look_over("CR CR LF", "month,ons\r\r\n202407,100\r\n");
    look_over("CR in a line", "month,ons\r\n202407\r,100\r\n");
    look_over("no last CR LF", "month,ons\r\n202407,100");
    look_over("byte order mark", "\xef\xbb\xbf" MONTH_FILE);
    look_over("a line after the file", MONTH_FILE "\n");
    look("a byte 0", "month\0ons\n", 10);
    /* The length alone decides here: no byte is looked at. */
    look("10^15 + 1 bytes", "", RATEIO_CHECK_LIMIT + 1);
    return 0;
}
