/*
 * A filter on Sendmail's libmilter that does what its words say, as tests/interop/mta.py plays messages to it. Its
 * first word is the address that it listens at, the others are
 *
 *     STAGE=VERDICT      what it answers at a stage: accept, reject, tempfail, discard, skip, or code (550 5.7.1 No)
 *     without=STAGE      the stage is not to be sent
 *     silent=STAGE       the stage is not answered
 *     symbols=STAGE:TEXT the macros that it asks for at a stage: connect, helo, mail, rcpt, data, eom or eoh
 *     skip               it asks that chunks of the body may be skipped
 *     leading            it asks for header values with the space before them
 *     edits              at the end of a message it asks for each edit
 *     values             at the end of a message it adds a header field with each macro and value that it was sent
 *
 * with STAGE one of connect, helo, mail, rcpt, data, header, eoh, body and eob. It serves one connection, and ends with
 * it.
 */
#include <libmilter/mfapi.h>
#include <stdlib.h>
#include <string.h>

enum stage { CONNECT, HELO, MAIL, RCPT, DATA, HEADER, EOH, BODY, EOB, STAGES };

static const char *const names[STAGES] = {
	"connect", "helo", "mail", "rcpt", "data", "header", "eoh", "body", "eob",
};
static const unsigned long without_bits[STAGES] = {
	SMFIP_NOCONNECT, SMFIP_NOHELO, SMFIP_NOMAIL, SMFIP_NORCPT, SMFIP_NODATA, SMFIP_NOHDRS, SMFIP_NOEOH, SMFIP_NOBODY, 0,
};
static const unsigned long silent_bits[STAGES] = {
	SMFIP_NR_CONN, SMFIP_NR_HELO, SMFIP_NR_MAIL, SMFIP_NR_RCPT, SMFIP_NR_DATA, SMFIP_NR_HDR, SMFIP_NR_EOH, SMFIP_NR_BODY,
	0,
};
static const char *const lists[] = { "connect", "helo", "mail", "rcpt", "data", "eom", "eoh" };
static const char *const macros[] = { "j", "{tls_version}", "i", "{rcpt_mailer}", "{not_given}" };

static const char *verdicts[STAGES];
static const char *symbols[7];
static unsigned long protocol;
static int edits, values;

static int ends(SMFICTX *context, enum stage stage)
{
	const char *verdict = verdicts[stage];

	if (!verdict)
		return SMFIS_CONTINUE;
	if (!strcmp(verdict, "accept"))
		return SMFIS_ACCEPT;
	if (!strcmp(verdict, "reject"))
		return SMFIS_REJECT;
	if (!strcmp(verdict, "tempfail"))
		return SMFIS_TEMPFAIL;
	if (!strcmp(verdict, "discard"))
		return SMFIS_DISCARD;
	if (!strcmp(verdict, "skip"))
		return SMFIS_SKIP;
	if (smfi_setreply(context, "550", "5.7.1", "No") != MI_SUCCESS)
		abort();
	return SMFIS_REJECT;
}

static sfsistat on_negotiate(SMFICTX *context, unsigned long actions, unsigned long steps, unsigned long unused_1,
	unsigned long unused_2, unsigned long *wants, unsigned long *asks, unsigned long *unused_3, unsigned long *unused_4)
{
	*wants = actions;
	*asks = steps & protocol;
	*unused_3 = *unused_4 = 0;
	for (int at = 0; at < 7; at++)
		if (symbols[at] && smfi_setsymlist(context, at, (char *) symbols[at]) != MI_SUCCESS)
			abort();
	return SMFIS_CONTINUE;
}

static sfsistat on_connect(SMFICTX *context, char *host, _SOCK_ADDR *address)
{
	return ends(context, CONNECT);
}

static sfsistat on_helo(SMFICTX *context, char *name)
{
	return ends(context, HELO);
}

static sfsistat on_mail(SMFICTX *context, char **words)
{
	return ends(context, MAIL);
}

static sfsistat on_rcpt(SMFICTX *context, char **words)
{
	return ends(context, RCPT);
}

static sfsistat on_data(SMFICTX *context)
{
	return ends(context, DATA);
}

static sfsistat on_header(SMFICTX *context, char *name, char *value)
{
	return ends(context, HEADER);
}

static sfsistat on_eoh(SMFICTX *context)
{
	return ends(context, EOH);
}

static sfsistat on_body(SMFICTX *context, unsigned char *chunk, size_t size)
{
	return ends(context, BODY);
}

static void done(int result)
{
	if (result != MI_SUCCESS)
		abort();
}

static void edit(SMFICTX *context)
{
	done(smfi_addheader(context, "X-Added", "added"));
	done(smfi_insheader(context, 0, "X-Top", "inserted at the top"));
	done(smfi_chgheader(context, "Subject", 1, "changed"));
	done(smfi_chgheader(context, "X-Remove", 1, NULL));
	done(smfi_progress(context));
	done(smfi_addrcpt(context, "<added@example.net>"));
	done(smfi_addrcpt_par(context, "<with@example.net>", "NOTIFY=NEVER"));
	done(smfi_delrcpt(context, "<bob@example.net>"));
	done(smfi_chgfrom(context, "<changed@example.org>", "RET=HDRS"));
	done(smfi_replacebody(context, (unsigned char *) "another body\r\n", 14));
	done(smfi_replacebody(context, (unsigned char *) "in two pieces\r\n", 15));
	done(smfi_quarantine(context, "looked at by a person"));
}

static sfsistat on_end(SMFICTX *context)
{
	if (edits)
		edit(context);
	for (size_t at = 0; values && at < sizeof macros / sizeof *macros; at++) {
		char *value = smfi_getsymval(context, (char *) macros[at]);

		if (value)
			done(smfi_addheader(context, "X-Macro", value));
	}
	return ends(context, EOB);
}

static sfsistat on_close(SMFICTX *context)
{
	exit(0);
}

/* where a name is in a list */
static int at_name(const char *const *list, int count, const char *name, size_t length)
{
	for (int at = 0; at < count; at++)
		if (strlen(list[at]) == length && !strncmp(list[at], name, length))
			return at;
	exit(2);
}

static void take(char *word)
{
	char *value = strchr(word, '=');

	if (!value) {
		edits |= !strcmp(word, "edits");
		values |= !strcmp(word, "values");
		protocol |= !strcmp(word, "skip") ? SMFIP_SKIP : !strcmp(word, "leading") ? SMFIP_HDR_LEADSPC : 0;
		return;
	}
	value++;
	if (!strncmp(word, "without=", 8))
		protocol |= without_bits[at_name(names, STAGES, value, strlen(value))];
	else if (!strncmp(word, "silent=", 7))
		protocol |= silent_bits[at_name(names, STAGES, value, strlen(value))];
	else if (!strncmp(word, "symbols=", 8)) {
		char *text = strchr(value, ':');

		symbols[at_name(lists, 7, value, text - value)] = text + 1;
	} else
		verdicts[at_name(names, STAGES, word, value - 1 - word)] = value;
}

int main(int count, char **words)
{
	struct smfiDesc filter = {
		.xxfi_name = "scripted", .xxfi_version = SMFI_VERSION,
		.xxfi_flags = SMFIF_ADDHDRS | SMFIF_CHGHDRS | SMFIF_CHGBODY | SMFIF_ADDRCPT | SMFIF_ADDRCPT_PAR
			| SMFIF_DELRCPT | SMFIF_CHGFROM | SMFIF_QUARANTINE | SMFIF_SETSYMLIST,
		.xxfi_connect = on_connect, .xxfi_helo = on_helo, .xxfi_envfrom = on_mail, .xxfi_envrcpt = on_rcpt,
		.xxfi_data = on_data, .xxfi_header = on_header, .xxfi_eoh = on_eoh, .xxfi_body = on_body, .xxfi_eom = on_end,
		.xxfi_close = on_close, .xxfi_negotiate = on_negotiate,
	};

	if (count < 2)
		return 2;
	for (int at = 2; at < count; at++)
		take(words[at]);
	if (smfi_setconn(words[1]) != MI_SUCCESS || smfi_register(filter) != MI_SUCCESS)
		return 2;
	return smfi_main();
}
