/* What answers as JSON have in common, and how a command ends that has one. */
#include "command.h"

const char *quoted(const char *word) {
    struct text t = {0};
    if (!word) return "null";
    put(&t, "\"");
    for (; *word; word++) put(&t, *word == '"' || *word == '\\' ? "\\%c" : "%c", *word);
    put(&t, "\"");
    return t.at;
}

const char *or_null(long long number) { return number == NONE ? "null" : plain(number); }

void json_node(struct text *t, const struct layout *l, long long node) {
    const struct node *n = &l->node[node];
    json(t, "{'node':%lld,'bank':%lld,'position':%lld,'address':%lld,'output':%s,'kind':'%s','name':%s,'source':%s", node, n->bank, n->position, n->address,
         or_null(n->output), kind_words[n->kind], quoted(name_of(l, node)), quoted(place_of(l, node)));
}

void json_blocks(struct text *t, const struct blocks *b) {
    json(t, "'blocks':[");
    for (size_t i = 0; i < b->count; i++) json(t, "{'start':%llu,'size':%llu}", (unsigned long long)b->starts[i], (unsigned long long)b->sizes[i]);
    json(t, "]");
}

void json_end(struct text *t, const struct refusal *r, const char *words) {
    const char *second = r->places > 1 ? shown(",%lld", r->place[1]) : "";
    if (r->number == 0) json(t, "'refused':null}\n");
    else json(t, "'refused':{'number':%d,'place':[%lld%s],'words':%s}}\n", r->number, r->place[0], second, quoted(words));
}

int refuse(const struct refusal *r, const char *words) {
    tell_user("refused with %d: %s", r->number, words);
    return REFUSED;
}

int finish(const struct asked *asked, const struct text *text, struct text *object, const struct refusal *r, const char *words, int differs) {
    int is_json = (asked->given & JSON) != 0;
    json_end(object, r, words);
    if (r->number && is_json) answer(bytes_of(object), NULL);
    if (r->number) return refuse(r, words);
    answer(bytes_of(is_json ? object : text), asked->out);
    return differs ? REFUSED : DONE;
}
