/* SPDX-License-Identifier: MIT OR Apache-2.0 */
/* The VTY of osmo-msc in the test, and tests of the settings, of `show subscriber` and of the counters. Of what the VTY
 * writes the lines of CAMEL are printed. */
#include <inttypes.h>
#include <string.h>

#include <osmocom/core/rate_ctr.h>
#include <osmocom/core/stat_item.h>
#include <osmocom/msc/msc_camel_core.h>
#include <osmocom/msc/sgs_iface.h>
#include <osmocom/msc/sgs_server.h>
#include <osmocom/msc/sms_queue.h>
#include <osmocom/msc/vty.h>
#include <osmocom/vty/command.h>
#include <osmocom/vty/logging.h>

#include "msc_vlr_camel_steps.h"

static struct vty *open_vty(void)
{
	static struct vty_app_info app = { .name = "test of CAMEL", .version = "0" };
	struct vty *vty;

	/* The VTY writes the settings of SGs and of short messages too. */
	g_sgs = talloc_zero(net, struct sgs_state);
	net->sms_queue_cfg = sms_queue_cfg_alloc(net);
	OSMO_ASSERT(g_sgs && net->sms_queue_cfg);
	vty_init(&app);
	logging_vty_add_cmds();
	msc_vty_init(net);
	vty = vty_new();
	OSMO_ASSERT(vty);
	vty->type = VTY_TERM;
	return vty;
}

static void print_lines_of_camel(char *text)
{
	bool is_node = false;

	for (char *next, *line = strtok_r(text, "\r\n", &next); line; line = strtok_r(NULL, "\r\n", &next)) {
		is_node = strcmp(line, "camel") == 0 || (is_node && line[0] == ' ');
		if (is_node || strstr(line, "CAMEL") || line[0] == '%')
			printf("%s\n", line);
	}
}

static int execute(enum node_type node, const char *command)
{
	static struct vty *vty;
	vector words = cmd_make_strvec(command);
	int result;
	char *written;

	if (!vty)
		vty = open_vty();
	vty->node = node;
	result = cmd_execute_command(words, vty, NULL, 0);
	cmd_free_strvec(words);
	written = buffer_getstr(vty->obuf);
	buffer_reset(vty->obuf);
	print_lines_of_camel(written);
	talloc_free(written);
	return result;
}

int configures(const char *command)
{
	return execute(MSC_CAMEL_NODE, command);
}

static void shows(const char *command)
{
	step("%s", command);
	OSMO_ASSERT(execute(ENABLE_NODE, command) == CMD_SUCCESS);
}

void test_settings(void)
{
	begins("The settings of the VTY");
	shows("show running-config");
	OSMO_ASSERT(configures("unknown-subscriber release") == CMD_SUCCESS);
	OSMO_ASSERT(configures("emergency-number 112") == CMD_SUCCESS);
	OSMO_ASSERT(configures("emergency-number 112") == CMD_SUCCESS);
	OSMO_ASSERT(configures("emergency-number 999") == CMD_SUCCESS);
	shows("show running-config");
	step("what is refused");
	OSMO_ASSERT(configures("emergency-number 11x") == CMD_WARNING);
	OSMO_ASSERT(configures("emergency-number 123456789012345678901234567890123") == CMD_WARNING);
	OSMO_ASSERT(configures("no emergency-number 113") == CMD_WARNING);
	OSMO_ASSERT(configures("unknown-subscriber continue") == CMD_SUCCESS);
	OSMO_ASSERT(configures("no emergency-number 112") == CMD_SUCCESS);
	OSMO_ASSERT(configures("no emergency-number 999") == CMD_SUCCESS);
	shows("show running-config");
	ends();
	shows("show running-config");
}

void test_switch(void)
{
	begins("CAMEL is switched off and on");
	location_update(&FIRST, DATA);
	location_update(&SECOND, DATA);
	sets_up(&FIRST, SETUP, SPEECH, LISTED);
	step("off: no call is asked, also one that has begun, and no data are stored");
	OSMO_ASSERT(configures("no enable") == CMD_SUCCESS);
	rejected_with(34);
	calls(&FIRST, LISTED);
	inserts(&FIRST, DATA);
	location_update(&FIRST, DATA);
	step("memory is refused to the store");
	refused = EACH_REQUEST;
	OSMO_ASSERT(configures("enable") == CMD_WARNING);
	refused = NO_REQUEST;
	step("on: the data are there from the next location update on");
	OSMO_ASSERT(configures("enable") == CMD_SUCCESS);
	OSMO_ASSERT(configures("enable") == CMD_SUCCESS);
	calls(&FIRST, LISTED);
	is_called_and_caller_gives_up(&FIRST);
	step("without them a call is released, if the VTY says so");
	OSMO_ASSERT(configures("unknown-subscriber release") == CMD_SUCCESS);
	calls_in_vain(&FIRST, SETUP);
	called_in_vain(&FIRST);
	OSMO_ASSERT(configures("unknown-subscriber continue") == CMD_SUCCESS);
	detaches(&SECOND);
	location_update(&FIRST, DATA);
	calls(&FIRST, LISTED);
	ends();
}

void test_shown_record(void)
{
	begins("show subscriber");
	location_update(&FIRST, DATA O_CRITERIA CALLED_DATA);
	shows("show subscriber imsi 901700000010650");
	inserts(&FIRST, O_CSI_1(ROW("02", "70", RELEASE)) OTHER_CRITERIA);
	shows("show subscriber imsi 901700000010650");
	location_update(&FIRST, NULL);
	shows("show subscriber imsi 901700000010650");
	ends();
}

static void print_counters(void)
{
	const struct msc_camel *camel = net->vlr->camel;

	for (unsigned at = 0; at < camel->rates->desc->num_ctr; at++)
		printf("%s: %" PRIu64 "\n", camel->rates->desc->ctr_desc[at].name,
		       rate_ctr_group_get_ctr(camel->rates, at)->current);
	for (unsigned at = 0; at < camel->stats->desc->num_items; at++)
		printf("%s: %d\n", camel->stats->desc->item_desc[at].name,
		       (int)osmo_stat_item_get_last(osmo_stat_item_group_get_item(camel->stats, at)));
}

unsigned count_records(void)
{
	camel_counts counts;

	OSMO_ASSERT(camel_counts_of(&net->vlr->camel->store, &counts) == CAMEL_OK);
	return counts.subscribers;
}

void test_counters(void)
{
	begins("The counters");
	rate_ctr_group_reset(net->vlr->camel->rates);
	location_update(&FIRST, DATA O_CRITERIA);
	location_update(&SECOND, RELEASING_DATA);
	step("a listed number, another one, a detection point without a row, and calls to a subscriber without a VT-CSI");
	calls(&FIRST, LISTED);
	calls(&FIRST, NOT_LISTED);
	inserts(&SECOND, O_CSI_1(ROW("04", "65", CONTINUE)));
	calls(&SECOND, LISTED);
	is_detached_and_called(&FIRST);
	print_counters();
	step("CancelLocation");
	hlr_sends(&SECOND, "1c", "060100", "1e", "");
	print_counters();
	ends();
}
