/*
 * A filter on Sendmail's libmilter that lets all mail go on, for as many connections as come. Its word is the address
 * that it listens at. A message of more than two recipients is refused at its end.
 */
#include <libmilter/mfapi.h>
#include <stdlib.h>

enum { RECIPIENTS = 2 };

static sfsistat connected(SMFICTX *context, char *host, _SOCK_ADDR *address)
{
	(void)host;
	(void)address;
	return smfi_setpriv(context, calloc(1, sizeof(int))) == MI_SUCCESS ? SMFIS_CONTINUE : SMFIS_TEMPFAIL;
}

static sfsistat sender(SMFICTX *context, char **words)
{
	(void)words;
	*(int *)smfi_getpriv(context) = 0;
	return SMFIS_CONTINUE;
}

static sfsistat recipient(SMFICTX *context, char **words)
{
	(void)words;
	++*(int *)smfi_getpriv(context);
	return SMFIS_CONTINUE;
}

static sfsistat ended(SMFICTX *context)
{
	return *(int *)smfi_getpriv(context) > RECIPIENTS ? SMFIS_REJECT : SMFIS_CONTINUE;
}

static sfsistat closed(SMFICTX *context)
{
	free(smfi_getpriv(context));
	smfi_setpriv(context, NULL);
	return SMFIS_CONTINUE;
}

int main(int count, char **words)
{
	struct smfiDesc description = {
		.xxfi_name = "passing",
		.xxfi_version = SMFI_VERSION,
		.xxfi_connect = connected,
		.xxfi_envfrom = sender,
		.xxfi_envrcpt = recipient,
		.xxfi_eom = ended,
		.xxfi_close = closed,
	};

	if (count != 2 || smfi_setconn(words[1]) != MI_SUCCESS || smfi_register(description) != MI_SUCCESS)
		return 1;
	return smfi_main();
}
