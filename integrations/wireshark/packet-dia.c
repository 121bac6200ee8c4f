/* dia: checks each Diameter message that Wireshark 4.0 shows against a dictionary of libdia. A post-dissector; docs/CAPTURES.md says
 * how it is installed and used. */
#include <dia.h>
#include <epan/expert.h>
#include <epan/packet.h>
#include <epan/prefs.h>
#include <ws_version.h>

WS_DLL_PUBLIC_DEF const gchar plugin_version[] = "1.0";
WS_DLL_PUBLIC_DEF const int plugin_want_major = WIRESHARK_VERSION_MAJOR;
WS_DLL_PUBLIC_DEF const int plugin_want_minor = WIRESHARK_VERSION_MINOR;
WS_DLL_PUBLIC void plugin_register(void);

#define HEADER 20
#define AVP_HEADER 8
#define MOST_BOOKS 32
#define ANY_APPLICATION UINT32_MAX

/* Wireshark 4.0 takes no other number of what isn't registered yet. */
static int proto_dia = -1, ett_dia = -1, id_diameter = -1;
static int hf_verdict = -1, hf_valid = -1, hf_fault = -1, hf_code = -1, hf_at = -1, hf_reason = -1, hf_avp = -1, hf_cut = -1;
static expert_field ei_fault = EI_INIT, ei_cut = EI_INIT, ei_dictionary = EI_INIT;
static dissector_handle_t handle;

/* The preferences. */
static const char *dictionary_path = "", *application_paths = "";
static gboolean refuses_unknown;

/* A dictionary, and the Application-ID of the messages that are checked against it. */
static struct book {
    uint32_t application;
    dia_dict dict;
} books[MOST_BOOKS];
static unsigned book_count;
static char *problem; /* why there is a dictionary too few, or NULL */

/* ---- dictionaries ---- */

static void note_problem(char *said) {
    if (problem == NULL) {
        problem = said;
    } else {
        g_free(said);
    }
}

static void note_first_fault(const char *path, const uint8_t *text, size_t len) {
    dia_faults faults = DIA_FAULTS_INIT;
    dia_fault fault;
    size_t count, line = 1, column = 1;
    if (dia_faults_open(text, len, &faults, &count) == DIA_OK && dia_faults_get(&faults, 0, &fault) == DIA_OK) {
        dia_line_column(text, len, fault.at, &line, &column);
    }
    dia_faults_close(&faults);
    note_problem(g_strdup_printf("%s:%zu:%zu: this is no dictionary: `diacmd render %s` says why", path, line, column, path));
}

static void open_book(const char *path, uint32_t application) {
    gchar *text = NULL;
    gsize len = 0;
    dia_problem why;
    dia_status status;
    if (book_count == MOST_BOOKS) {
        note_problem(g_strdup_printf("there are more than %d dictionaries", MOST_BOOKS));
        return;
    }
    if (!g_file_get_contents(path, &text, &len, NULL)) {
        note_problem(g_strdup_printf("%s can't be read", path));
        return;
    }
    status = dia_dict_open((const uint8_t *)text, len, &books[book_count].dict, &why);
    if (status == DIA_OK) {
        books[book_count++].application = application;
    } else if (status == DIA_REFUSED) {
        note_first_fault(path, (const uint8_t *)text, len);
    } else {
        note_problem(g_strdup_printf("%s: there is no memory", path));
    }
    g_free(text);
}

/* Opens the dictionaries of the applications, `ID=FILE;ID=FILE`. */
static void open_application_books(void) {
    gchar **parts = g_strsplit(application_paths, ";", -1);
    for (gchar **part = parts; *part != NULL; part++) {
        gchar *end = NULL;
        const guint64 application = g_ascii_strtoull(*part, &end, 10);
        if (end != *part && *end == '=' && application < ANY_APPLICATION) {
            open_book(end + 1, (uint32_t)application);
        } else if (**part != '\0') {
            note_problem(g_strdup_printf("%s has not the form ID=FILE", *part));
        }
    }
    g_strfreev(parts);
}

static void apply_preferences(void) {
    while (book_count > 0) {
        dia_dict_close(&books[--book_count].dict);
    }
    g_free(problem);
    problem = NULL;
    open_application_books();
    if (*dictionary_path != '\0') {
        open_book(dictionary_path, ANY_APPLICATION);
    } else if (book_count < MOST_BOOKS && dia_dict_open_base(&books[book_count].dict) == DIA_OK) {
        books[book_count++].application = ANY_APPLICATION;
    }
}

/* The dictionary of an application, or else that of all. */
static dia_dict *book_of(uint32_t application) {
    for (unsigned i = 0; i < book_count; i++) {
        if (books[i].application == application || books[i].application == ANY_APPLICATION) {
            return &books[i].dict;
        }
    }
    return NULL;
}

/* ---- messages ---- */

/* How many bytes there are at the place of a fault: those of a field of the header, or of an AVP with its padding left out. */
static int range_of(tvbuff_t *tvb, const dia_verdict *v) {
    const int left = (int)tvb_captured_length(tvb) - (int)v->place;
    int wanted = v->place == 0 || v->place == 4 ? 1 : v->place < 8 ? 3 : v->place < HEADER ? 4 : AVP_HEADER;
    if (v->place >= HEADER && left >= AVP_HEADER) {
        /* AVP Length (RFC 6733 section 4.1) */
        wanted = MAX(wanted, (int)tvb_get_ntoh24(tvb, (int)v->place + 5));
    }
    return MIN(wanted, left); /* 0 where an AVP is missing at the end */
}

static void add_fault(tvbuff_t *tvb, packet_info *pinfo, proto_tree *tree, const dia_verdict *v, const char *line) {
    /* such as `fault 5009 at 80 too-many Usage-Report` */
    gchar **words = g_strsplit(line, " ", -1);
    const int at = (int)v->place, count = range_of(tvb, v);
    const char *fault = line + strlen("fault ");
    proto_item *item = proto_tree_add_string(tree, hf_fault, tvb, at, count, fault);
    proto_item_set_generated(item);
    expert_add_info_format(pinfo, item, &ei_fault, "Diameter fault %s", fault);
    proto_item_set_generated(proto_tree_add_uint(tree, hf_code, tvb, at, count, v->code));
    proto_item_set_generated(proto_tree_add_uint(tree, hf_at, tvb, at, count, v->place));
    proto_item_set_generated(proto_tree_add_string(tree, hf_reason, tvb, at, count, words[4]));
    proto_item_set_generated(proto_tree_add_string(tree, hf_avp, tvb, at, count, words[5]));
    col_append_fstr(pinfo->cinfo, COL_INFO, " [%s]", line);
    g_strfreev(words);
}

static void add_cut(tvbuff_t *tvb, packet_info *pinfo, proto_tree *tree, const char *line) {
    const gboolean is_of_capture = pinfo->fd->cap_len < pinfo->fd->pkt_len;
    proto_item *item = proto_tree_add_string(tree, hf_cut, tvb, 0, -1, line);
    proto_item_set_generated(item);
    expert_add_info_format(pinfo, item, &ei_cut, "%s", is_of_capture ? "The capture has only a part of this message" : line);
}

static void check_message(tvbuff_t *tvb, packet_info *pinfo, proto_tree *tree) {
    uint8_t text[DIA_MAX_LINE];
    char *line;
    size_t length;
    const int count = (int)tvb_captured_length(tvb);
    dia_dict *dict = book_of(count >= 12 ? tvb_get_ntohl(tvb, 8) : 0); /* Application-ID */
    const uint32_t unknown = refuses_unknown ? DIA_UNKNOWN_REFUSED : DIA_KEPT;
    dia_verdict v;
    proto_tree *below;
    if (dict == NULL || dia_check(dict, unknown, DIA_ANY_LEVELS, tvb_get_ptr(tvb, 0, count), (size_t)count, &v) != DIA_OK
        || dia_verdict_text(dict, &v, text, sizeof text, &length) != DIA_OK) {
        return;
    }
    line = wmem_strndup(wmem_packet_scope(), (const char *)text, length);
    below = proto_item_add_subtree(proto_tree_add_protocol_format(tree, proto_dia, tvb, 0, count, "Dictionary check: %s", line), ett_dia);
    proto_item_set_generated(proto_tree_add_string(below, hf_verdict, tvb, 0, count, line));
    if (v.outcome == DIA_VALID) {
        proto_item_set_generated(proto_tree_add_string(below, hf_valid, tvb, 0, count, line + strlen("valid ")));
    } else if (v.outcome == DIA_FAULT) {
        add_fault(tvb, pinfo, below, &v, line);
    } else {
        add_cut(tvb, pinfo, below, line);
    }
}

/* Finds the Diameter messages below a node of the tree. */
static void find_messages(proto_node *node, gpointer found) {
    field_info *field = PNODE_FINFO(node);
    if (field != NULL && field->hfinfo != NULL && field->hfinfo->id == id_diameter) {
        g_ptr_array_add((GPtrArray *)found, field);
    }
    proto_tree_children_foreach(node, find_messages, found);
}

static int dissect(tvbuff_t *tvb, packet_info *pinfo, proto_tree *tree, void *data _U_) {
    GPtrArray *known = proto_get_finfo_ptr_array(tree, id_diameter), *found = g_ptr_array_new();
    if (known == NULL && tree != NULL) {
        /* the second pass of `tshark -2` primes no fields for post-dissectors */
        proto_tree_children_foreach(tree, find_messages, found);
    }
    for (guint i = 0; known != NULL && i < known->len; i++) {
        g_ptr_array_add(found, g_ptr_array_index(known, i));
    }
    if (problem != NULL && found->len > 0) {
        proto_tree_add_expert_format(tree, pinfo, &ei_dictionary, tvb, 0, 0, "%s", problem);
    }
    for (guint i = 0; problem == NULL && i < found->len; i++) {
        field_info *field = (field_info *)g_ptr_array_index(found, i);
        if (field->ds_tvb != NULL && field->length > 0) {
            check_message(tvb_new_subset_length(field->ds_tvb, field->start, field->length), pinfo, tree);
        }
    }
    g_ptr_array_free(found, TRUE);
    return (int)tvb_captured_length(tvb);
}

/* ---- registration ---- */

#define TEXT(field, title, name) { &field, { title, "dia." name, FT_STRING, BASE_NONE, NULL, 0, NULL, HFILL } }
#define NUMBER(field, title, name) { &field, { title, "dia." name, FT_UINT32, BASE_DEC, NULL, 0, NULL, HFILL } }

static void register_preferences(void) {
    module_t *module = prefs_register_protocol(proto_dia, apply_preferences);
    prefs_register_filename_preference(module, "dictionary", "Dictionary",
                                       "The dictionary of all applications without one of their own; if empty, that of RFC 6733",
                                       &dictionary_path, FALSE);
    prefs_register_string_preference(module, "applications", "Dictionaries of applications", "ID=FILE;ID=FILE, by Application-ID",
                                     &application_paths);
    prefs_register_bool_preference(module, "refuse_unknown", "Refuse unknown AVPs", "Unknown AVPs are faults, also with M clear",
                                   &refuses_unknown);
}

static void register_dia(void) {
    static hf_register_info fields[] = {
        TEXT(hf_verdict, "Verdict", "verdict"), TEXT(hf_valid, "Valid", "valid"), TEXT(hf_fault, "Fault", "fault"),
        NUMBER(hf_code, "Result-Code", "code"), NUMBER(hf_at, "Offset", "at"),    TEXT(hf_reason, "Reason", "reason"),
        TEXT(hf_avp, "AVP", "avp"),             TEXT(hf_cut, "Not whole", "cut"),
    };
    static int *trees[] = { &ett_dia };
    static ei_register_info experts[] = {
        { &ei_fault, { "dia.fault.expert", PI_PROTOCOL, PI_ERROR, "Fault", EXPFILL } },
        { &ei_cut, { "dia.cut.expert", PI_MALFORMED, PI_WARN, "Not whole", EXPFILL } },
        { &ei_dictionary, { "dia.dictionary.expert", PI_UNDECODED, PI_WARN, "No dictionary", EXPFILL } },
    };
    proto_dia = proto_register_protocol("Diameter dictionary check", "Dictionary check", "dia");
    proto_register_field_array(proto_dia, fields, array_length(fields));
    proto_register_subtree_array(trees, array_length(trees));
    expert_register_field_array(expert_register_protocol(proto_dia), experts, array_length(experts));
    register_preferences();
    handle = create_dissector_handle(dissect, proto_dia);
}

/* Asks for the Diameter messages of each packet. */
static void hand_off_dia(void) {
    GArray *wanted;
    id_diameter = proto_registrar_get_id_byname("diameter");
    if (id_diameter == -1) {
        return;
    }
    wanted = g_array_new(FALSE, FALSE, sizeof(int));
    g_array_append_val(wanted, id_diameter);
    register_postdissector(handle);
    set_postdissector_wanted_hfids(handle, wanted);
    apply_preferences();
}

void plugin_register(void) {
    static proto_plugin plugin;
    if (dia_abi_version() != DIA_ABI_VERSION) {
        return;
    }
    plugin.register_protoinfo = register_dia;
    plugin.register_handoff = hand_off_dia;
    proto_register_plugin(&plugin);
}
