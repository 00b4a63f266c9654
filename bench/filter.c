/*
 * A filter on Sendmail's libmilter, as bench/filter.sh and bench/serve.sh measure it beside milter_tool: it lets each
 * command go on, keeps the body, and accepts at the end of each message. Its word is the path of the Unix socket that
 * it listens at. It serves one connection, and ends with it; with a second word, `many`, it serves connections until
 * it is ended. With the second word `rcpt` it does so too, but refuses one recipient, and lets all else go on: it
 * negotiates to be sent and to answer no more than that needs, as `milter_tool serve` does with such a rule.
 */
#include <libmilter/mfapi.h>
#include <stdlib.h>
#include <string.h>
#include <strings.h>

struct body {
	unsigned char *bytes;
	size_t size;
	size_t room;
};

static int is_for_many;

static sfsistat on_connect(SMFICTX *context, char *host, _SOCK_ADDR *address)
{
	return smfi_setpriv(context, calloc(1, sizeof(struct body))) == MI_SUCCESS ? SMFIS_CONTINUE : SMFIS_TEMPFAIL;
}

static sfsistat on_helo(SMFICTX *context, char *name)
{
	return SMFIS_CONTINUE;
}

static sfsistat on_path(SMFICTX *context, char **words)
{
	return SMFIS_CONTINUE;
}

static sfsistat on_stage(SMFICTX *context)
{
	return SMFIS_CONTINUE;
}

static sfsistat on_header(SMFICTX *context, char *name, char *value)
{
	return SMFIS_CONTINUE;
}

static sfsistat on_body(SMFICTX *context, unsigned char *chunk, size_t size)
{
	struct body *body = smfi_getpriv(context);

	if (body->room - body->size < size) {
		body->room = 2 * (body->size + size);
		body->bytes = realloc(body->bytes, body->room);
		if (!body->bytes)
			abort();
	}
	memcpy(body->bytes + body->size, chunk, size);
	body->size += size;
	return SMFIS_CONTINUE;
}

static sfsistat on_end(SMFICTX *context)
{
	struct body *body = smfi_getpriv(context);

	body->size = 0;
	return SMFIS_ACCEPT;
}

static sfsistat on_close(SMFICTX *context)
{
	struct body *body = smfi_getpriv(context);

	if (!is_for_many)
		exit(0);
	if (body) {
		free(body->bytes);
		free(body);
		smfi_setpriv(context, NULL);
	}
	return SMFIS_CONTINUE;
}

static sfsistat on_options(SMFICTX *context, unsigned long actions, unsigned long protocol, unsigned long third,
	unsigned long fourth, unsigned long *own_actions, unsigned long *own_protocol, unsigned long *own_third,
	unsigned long *own_fourth)
{
	*own_actions = *own_third = *own_fourth = 0;
	*own_protocol = protocol & (SMFIP_NOCONNECT | SMFIP_NOHELO | SMFIP_NODATA | SMFIP_NOHDRS | SMFIP_NOEOH |
		SMFIP_NOBODY | SMFIP_NOUNKNOWN | SMFIP_NR_CONN | SMFIP_NR_HELO | SMFIP_NR_MAIL | SMFIP_NR_DATA |
		SMFIP_NR_HDR | SMFIP_NR_EOH | SMFIP_NR_BODY | SMFIP_NR_UNKN);
	return SMFIS_CONTINUE;
}

static sfsistat on_sender(SMFICTX *context, char **words)
{
	return SMFIS_NOREPLY;
}

static sfsistat on_recipient(SMFICTX *context, char **words)
{
	if (strcasecmp(words[0], "<noreply@example.net>"))
		return SMFIS_CONTINUE;
	smfi_setreply(context, "550", "5.1.1", "This address takes no mail");
	return SMFIS_REJECT;
}

int main(int count, char **words)
{
	struct smfiDesc filter = {
		.xxfi_name = "measured", .xxfi_version = SMFI_VERSION, .xxfi_connect = on_connect, .xxfi_helo = on_helo,
		.xxfi_envfrom = on_path, .xxfi_envrcpt = on_path, .xxfi_data = on_stage, .xxfi_header = on_header,
		.xxfi_eoh = on_stage, .xxfi_body = on_body, .xxfi_eom = on_end, .xxfi_close = on_close,
	};
	struct smfiDesc recipient_filter = {
		.xxfi_name = "measured", .xxfi_version = SMFI_VERSION, .xxfi_negotiate = on_options,
		.xxfi_envfrom = on_sender, .xxfi_envrcpt = on_recipient,
	};
	int is_of_recipients = count == 3 && !strcmp(words[2], "rcpt");

	is_for_many = count == 3 && !strcmp(words[2], "many");
	if (count != 2 + (is_for_many || is_of_recipients) || smfi_setconn(words[1]) != MI_SUCCESS)
		return 2;
	if (smfi_register(is_of_recipients ? recipient_filter : filter) != MI_SUCCESS)
		return 2;
	return smfi_main();
}
