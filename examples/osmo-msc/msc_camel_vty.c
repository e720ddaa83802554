/* SPDX-License-Identifier: MIT OR Apache-2.0 */
/* The node `camel` of the VTY, and what `show subscriber` has of a record. A setting that is its default is not
 * written, so a configuration without CAMEL stays as it is. */
#include <stdlib.h>
#include <string.h>

#include <osmocom/core/talloc.h>
#include <osmocom/core/utils.h>
#include <osmocom/msc/gsm_data.h>
#include <osmocom/msc/msc_camel_core.h>
#include <osmocom/msc/vlr.h>
#include <osmocom/msc/vty.h>

static struct gsm_network *network;

static struct cmd_node vty_node = {
	MSC_CAMEL_NODE,
	"%s(config-camel)# ",
	1,
};

DEFUN(cfg_camel, cfg_camel_cmd, "camel", "Configure CAMEL phase 3 (3GPP TS 23.078)\n")
{
	vty->node = MSC_CAMEL_NODE;
	return CMD_SUCCESS;
}

DEFUN(cfg_camel_enable, cfg_camel_enable_cmd, "enable",
      "Store CAMEL data of subscribers from their next location update on, and ask at detection points\n")
{
	camel_status status = msc_camel_enable(network->vlr->camel);

	if (status == CAMEL_OK)
		return CMD_SUCCESS;
	vty_out(vty, "%% CAMEL is not enabled: %s%s", camel_status_name(status), VTY_NEWLINE);
	return CMD_WARNING;
}

DEFUN(cfg_camel_no_enable, cfg_camel_no_enable_cmd, "no enable",
      NO_STR "Store no CAMEL data, drop those that are stored, and ask at no detection point (default)\n")
{
	msc_camel_disable(network->vlr->camel);
	return CMD_SUCCESS;
}

DEFUN(cfg_camel_unknown, cfg_camel_unknown_cmd, "unknown-subscriber (continue|release)",
      "Calls of a subscriber without CAMEL data whose location update was before CAMEL was enabled\n"
      "They go on without a service (default)\n"
      "They are released\n")
{
	network->vlr->camel->releases_unknown = strcmp(argv[0], "release") == 0;
	return CMD_SUCCESS;
}

static struct msc_camel_number *find_number(const char *digits)
{
	struct msc_camel_number *number;

	llist_for_each_entry(number, &network->vlr->camel->emergency_numbers, list) {
		if (strcmp(number->digits, digits) == 0)
			return number;
	}
	return NULL;
}

#define EMERGENCY_NUMBER_STR \
	"Number of emergency calls, for which no service is asked, beside 'emergency-call route-to-msisdn'\n"

DEFUN(cfg_camel_emergency, cfg_camel_emergency_cmd, "emergency-number DIGITS",
      EMERGENCY_NUMBER_STR "As the mobile sends it in a SETUP, as in 112\n")
{
	struct msc_camel *camel = network->vlr->camel;
	struct msc_camel_number *number;

	if (strspn(argv[0], "0123456789*#abc") != strlen(argv[0]) || strlen(argv[0]) >= sizeof(number->digits)) {
		vty_out(vty, "%% %s has other characters than digits, or more than %zu%s", argv[0],
			sizeof(number->digits) - 1, VTY_NEWLINE);
		return CMD_WARNING;
	}
	if (find_number(argv[0]))
		return CMD_SUCCESS;
	number = talloc_zero(camel, struct msc_camel_number);
	OSMO_ASSERT(number);
	OSMO_STRLCPY_ARRAY(number->digits, argv[0]);
	llist_add_tail(&number->list, &camel->emergency_numbers);
	return CMD_SUCCESS;
}

DEFUN(cfg_camel_no_emergency, cfg_camel_no_emergency_cmd, "no emergency-number DIGITS",
      NO_STR EMERGENCY_NUMBER_STR "A number that is set\n")
{
	struct msc_camel_number *number = find_number(argv[0]);

	if (!number) {
		vty_out(vty, "%% %s is not set%s", argv[0], VTY_NEWLINE);
		return CMD_WARNING;
	}
	llist_del(&number->list);
	talloc_free(number);
	return CMD_SUCCESS;
}

static int write_config(struct vty *vty)
{
	const struct msc_camel *camel = network->vlr->camel;
	const struct msc_camel_number *number;

	if (!camel->is_enabled && !camel->releases_unknown && llist_empty(&camel->emergency_numbers))
		return CMD_SUCCESS;
	vty_out(vty, "camel%s", VTY_NEWLINE);
	if (camel->is_enabled)
		vty_out(vty, " enable%s", VTY_NEWLINE);
	if (camel->releases_unknown)
		vty_out(vty, " unknown-subscriber release%s", VTY_NEWLINE);
	llist_for_each_entry(number, &camel->emergency_numbers, list)
		vty_out(vty, " emergency-number %s%s", number->digits, VTY_NEWLINE);
	return CMD_SUCCESS;
}

void msc_camel_vty_init(struct gsm_network *net)
{
	network = net;
	install_element(CONFIG_NODE, &cfg_camel_cmd);
	install_node(&vty_node, write_config);
	install_element(MSC_CAMEL_NODE, &cfg_camel_enable_cmd);
	install_element(MSC_CAMEL_NODE, &cfg_camel_no_enable_cmd);
	install_element(MSC_CAMEL_NODE, &cfg_camel_unknown_cmd);
	install_element(MSC_CAMEL_NODE, &cfg_camel_emergency_cmd);
	install_element(MSC_CAMEL_NODE, &cfg_camel_no_emergency_cmd);
}

/* The criteria at a detection point. Without any they are 0. */
static camel_criteria criteria_at(camel_session *session, const camel_imsi *imsi, uint8_t dp)
{
	camel_criteria criteria, none = { 0 };
	bool is_there;

	return camel_criteria_at(session, imsi, dp, &criteria, &is_there) == CAMEL_OK && is_there ? criteria : none;
}

static void show_row(struct vty *vty, int offset, const camel_row *row, const camel_criteria *criteria)
{
	bool has_basic = criteria->basic.count > 0, has_causes = criteria->causes.count > 0;
	bool has_any = criteria->has_number || has_basic || criteria->has_call_type || has_causes;

	vty_out(vty, "%*sCAMEL DP %u: service key %u at gsmSCF %s, default %s, criteria:", offset, "", row->dp, row->key,
		osmo_hexdump_nospc(row->scf.octets, row->scf.length), row->handling ? "release" : "continue");
	vty_out(vty, "%s%s%s%s%s%s", criteria->has_number ? " number" : "", has_basic ? " basic-service" : "",
		criteria->has_call_type ? " call-type" : "", has_causes ? " cause" : "", has_any ? "" : " none",
		VTY_NEWLINE);
}

/* A subscriber without a row has a line too. */
void msc_camel_vty_show(struct vty *vty, int offset, const struct vlr_subscr *vsub)
{
	static const uint8_t points[] = { CAMEL_DP_COLLECTED_INFO, CAMEL_DP_ROUTE_SELECT_FAILURE,
					  CAMEL_DP_TERM_ATTEMPT_AUTHORIZED, CAMEL_DP_T_BUSY, CAMEL_DP_T_NO_ANSWER };
	struct msc_camel *camel = vsub->vlr->camel;
	bool is_there, has_row = false;
	camel_criteria criteria;
	camel_imsi imsi;
	camel_row row;

	if (!camel->is_enabled || msc_camel_imsi_of(vsub, &imsi) != CAMEL_OK)
		return;
	for (size_t at = 0; at < ARRAY_SIZE(points); at++) {
		if (camel_row_at(&camel->session, &imsi, points[at], &row, &is_there) == CAMEL_OK && is_there) {
			criteria = criteria_at(&camel->session, &imsi, points[at]);
			show_row(vty, offset, &row, &criteria);
			has_row = true;
		}
	}
	if (!has_row)
		vty_out(vty, "%*sCAMEL: no CSI%s", offset, "", VTY_NEWLINE);
}
