/* The sizes and places that the proved code was built with. */
#include "dia.h"

#define AT(type, field, place) _Static_assert(offsetof(type, field) == place, #type "." #field)

_Static_assert(sizeof(dia_dict) == 16, "dia_dict");
AT(dia_dict, dia_private, 0);
AT(dia_dict, dia_state, 8);

_Static_assert(sizeof(dia_text) == 16, "dia_text");
AT(dia_text, dia_private, 0);
AT(dia_text, dia_state, 8);

_Static_assert(sizeof(dia_problem) == 12, "dia_problem");
AT(dia_problem, kind, 0);
AT(dia_problem, line, 4);
AT(dia_problem, token, 8);

_Static_assert(sizeof(dia_faults) == 16, "dia_faults");
AT(dia_faults, dia_private, 0);
AT(dia_faults, dia_state, 8);

_Static_assert(sizeof(dia_fault) == 296, "dia_fault");
AT(dia_fault, at, 0);
AT(dia_fault, name_count, 8);
AT(dia_fault, slot_count, 16);
AT(dia_fault, kind, 24);
AT(dia_fault, token, 28);
AT(dia_fault, has_place, 32);
AT(dia_fault, name, 36);
AT(dia_fault, slot, 164);

_Static_assert(sizeof(dia_verdict) == 48, "dia_verdict");
AT(dia_verdict, outcome, 0);
AT(dia_verdict, command, 4);
AT(dia_verdict, code, 8);
AT(dia_verdict, place, 12);
AT(dia_verdict, reason, 16);
AT(dia_verdict, subject, 20);
AT(dia_verdict, avp_code, 24);
AT(dia_verdict, avp_vendor, 28);
AT(dia_verdict, reserved, 32);

_Static_assert(sizeof(dia_peer) == 16, "dia_peer");
AT(dia_peer, dia_private, 0);
AT(dia_peer, dia_state, 8);

_Static_assert(sizeof(dia_ip) == 20, "dia_ip");
AT(dia_ip, is_v6, 0);
AT(dia_ip, bytes, 4);

_Static_assert(sizeof(dia_app) == 16, "dia_app");
AT(dia_app, is_acct, 0);
AT(dia_app, id, 4);
AT(dia_app, has_vendor, 8);
AT(dia_app, vendor, 12);

_Static_assert(sizeof(dia_numbers) == 20, "dia_numbers");
AT(dia_numbers, vendor, 0);
AT(dia_numbers, has_state_id, 4);
AT(dia_numbers, state_id, 8);
AT(dia_numbers, hop, 12);
AT(dia_numbers, e2e, 16);

_Static_assert(sizeof(dia_peer_options) == 184, "dia_peer_options");
AT(dia_peer_options, size, 0);
AT(dia_peer_options, role, 8);
AT(dia_peer_options, manner, 12);
AT(dia_peer_options, host, 16);
AT(dia_peer_options, host_len, 24);
AT(dia_peer_options, realm, 32);
AT(dia_peer_options, realm_len, 40);
AT(dia_peer_options, product, 48);
AT(dia_peer_options, product_len, 56);
AT(dia_peer_options, addresses, 64);
AT(dia_peer_options, address_count, 72);
AT(dia_peer_options, apps, 80);
AT(dia_peer_options, app_count, 88);
AT(dia_peer_options, numbers, 96);
AT(dia_peer_options, reserved, 120);

_Static_assert(sizeof(dia_stream) == 16, "dia_stream");
AT(dia_stream, dia_private, 0);
AT(dia_stream, dia_state, 8);

_Static_assert(sizeof(dia_fed) == 16, "dia_fed");
AT(dia_fed, taken, 0);
AT(dia_fed, done, 8);

_Static_assert(sizeof(dia_avp) == 224, "dia_avp");
AT(dia_avp, place, 0);
AT(dia_avp, depth, 8);
AT(dia_avp, length, 16);
AT(dia_avp, data_place, 24);
AT(dia_avp, data_length, 32);
AT(dia_avp, name_count, 40);
AT(dia_avp, code, 48);
AT(dia_avp, vendor, 52);
AT(dia_avp, flags, 56);
AT(dia_avp, format, 60);
AT(dia_avp, name, 64);
AT(dia_avp, reserved, 192);

_Static_assert(sizeof(dia_head) == 24, "dia_head");
AT(dia_head, length, 0);
AT(dia_head, flags, 4);
AT(dia_head, code, 8);
AT(dia_head, app, 12);
AT(dia_head, hop, 16);
AT(dia_head, e2e, 20);

_Static_assert(sizeof(dia_command) == 160, "dia_command");
AT(dia_command, name_count, 0);
AT(dia_command, command, 8);
AT(dia_command, code, 12);
AT(dia_command, kind, 16);
AT(dia_command, proxy, 20);
AT(dia_command, has_app, 24);
AT(dia_command, app, 28);
AT(dia_command, name, 32);

_Static_assert(sizeof(dia_entry) == 152, "dia_entry");
AT(dia_entry, name_count, 0);
AT(dia_entry, code, 8);
AT(dia_entry, vendor, 12);
AT(dia_entry, format, 16);
AT(dia_entry, mandatory, 20);
AT(dia_entry, name, 24);
