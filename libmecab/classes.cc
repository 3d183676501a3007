// MeCab's C++ classes over its C calls.
#include "layer_cpp.h"
#include <new>

namespace {

class LatticeOver final : public MeCab::Lattice {
public:
    explicit LatticeOver(mecab_lattice_t *at) : at(at) {}
    ~LatticeOver() override { mecab_lattice_destroy(at); }

    void clear() override { mecab_lattice_clear(at); }
    bool is_available() const override { return mecab_lattice_is_available(at) != 0; }
    MeCab::Node *bos_node() const override { return mecab_lattice_get_bos_node(at); }
    MeCab::Node *eos_node() const override { return mecab_lattice_get_eos_node(at); }
    MeCab::Node **begin_nodes() const override { return mecab_lattice_get_all_begin_nodes(at); }
    MeCab::Node **end_nodes() const override { return mecab_lattice_get_all_end_nodes(at); }
    MeCab::Node *end_nodes(size_t pos) const override {
        return mecab_lattice_get_end_nodes(at, pos);
    }
    MeCab::Node *begin_nodes(size_t pos) const override {
        return mecab_lattice_get_begin_nodes(at, pos);
    }
    const char *sentence() const override { return mecab_lattice_get_sentence(at); }
    void set_sentence(const char *text) override { mecab_lattice_set_sentence(at, text); }
    void set_sentence(const char *text, size_t length) override {
        mecab_lattice_set_sentence2(at, text, length);
    }
    size_t size() const override { return mecab_lattice_get_size(at); }
    void set_Z(double z) override { mecab_lattice_set_z(at, z); }
    double Z() const override { return mecab_lattice_get_z(at); }
    void set_theta(float theta) override { mecab_lattice_set_theta(at, theta); }
    float theta() const override { return static_cast<float>(mecab_lattice_get_theta(at)); }
    bool next() override { return mecab_lattice_next(at) != 0; }
    int request_type() const override { return mecab_lattice_get_request_type(at); }
    bool has_request_type(int type) const override {
        return mecab_lattice_has_request_type(at, type) != 0;
    }
    void set_request_type(int type) override { mecab_lattice_set_request_type(at, type); }
    void add_request_type(int type) override { mecab_lattice_add_request_type(at, type); }
    void remove_request_type(int type) override { mecab_lattice_remove_request_type(at, type); }
    MeCab::Allocator<MeCab::Node, MeCab::Path> *allocator() const override { return nullptr; }
    MeCab::Node *newNode() override { return mecab_lattice_new_node(at); }
    const char *toString() override { return mecab_lattice_tostr(at); }
    const char *toString(const MeCab::Node *node) override { return text_of_node(at, node); }
    const char *enumNBestAsString(size_t n) override { return mecab_lattice_nbest_tostr(at, n); }
    const char *toString(char *out, size_t room) override {
        return mecab_lattice_tostr2(at, out, room);
    }
    const char *toString(const MeCab::Node *node, char *out, size_t room) override {
        return copy_text_of_node(at, node, out, room);
    }
    const char *enumNBestAsString(size_t n, char *out, size_t room) override {
        return mecab_lattice_nbest_tostr2(at, n, out, room);
    }
    bool has_constraint() const override { return mecab_lattice_has_constraint(at) != 0; }
    int boundary_constraint(size_t pos) const override {
        return mecab_lattice_get_boundary_constraint(at, pos);
    }
    const char *feature_constraint(size_t pos) const override {
        return mecab_lattice_get_feature_constraint(at, pos);
    }
    void set_boundary_constraint(size_t pos, int type) override {
        mecab_lattice_set_boundary_constraint(at, pos, type);
    }
    void set_feature_constraint(size_t from, size_t to, const char *feature) override {
        mecab_lattice_set_feature_constraint(at, from, to, feature);
    }
    void set_result(const char *result) override { mecab_lattice_set_result(at, result); }
    const char *what() const override { return mecab_lattice_strerror(at); }
    void set_what(const char *text) override { set_error_of(at, text); }

    mecab_lattice_t *const at;
};

mecab_lattice_t *at_of(MeCab::Lattice *lattice) {
    return lattice != nullptr ? static_cast<LatticeOver *>(lattice)->at : nullptr;
}

class TaggerOver final : public MeCab::Tagger {
public:
    explicit TaggerOver(mecab_t *at) : at(at) {}
    ~TaggerOver() override { mecab_destroy(at); }

    bool parse(MeCab::Lattice *lattice) const override {
        return mecab_parse_lattice(at, at_of(lattice)) != 0;
    }
    const char *parse(const char *text) override { return mecab_sparse_tostr(at, text); }
    const MeCab::Node *parseToNode(const char *text) override {
        return mecab_sparse_tonode(at, text);
    }
    const char *parseNBest(size_t n, const char *text) override {
        return mecab_nbest_sparse_tostr(at, n, text);
    }
    bool parseNBestInit(const char *text) override { return mecab_nbest_init(at, text) != 0; }
    const MeCab::Node *nextNode() override { return mecab_nbest_next_tonode(at); }
    const char *next() override { return mecab_nbest_next_tostr(at); }
    const char *formatNode(const MeCab::Node *node) override { return mecab_format_node(at, node); }
    const char *parse(const char *text, size_t length, char *out, size_t room) override {
        return mecab_sparse_tostr3(at, text, length, out, room);
    }
    const char *parse(const char *text, size_t length) override {
        return mecab_sparse_tostr2(at, text, length);
    }
    const MeCab::Node *parseToNode(const char *text, size_t length) override {
        return mecab_sparse_tonode2(at, text, length);
    }
    const char *parseNBest(size_t n, const char *text, size_t length) override {
        return mecab_nbest_sparse_tostr2(at, n, text, length);
    }
    bool parseNBestInit(const char *text, size_t length) override {
        return mecab_nbest_init2(at, text, length) != 0;
    }
    const char *next(char *out, size_t room) override {
        return mecab_nbest_next_tostr2(at, out, room);
    }
    const char *parseNBest(size_t n, const char *text, size_t length, char *out,
                           size_t room) override {
        return mecab_nbest_sparse_tostr3(at, n, text, length, out, room);
    }
    const char *formatNode(const MeCab::Node *node, char *out, size_t room) override {
        return copy_format_node(at, node, out, room);
    }
    void set_request_type(int type) override { set_request_of_tagger(at, type); }
    int request_type() const override { return request_of_tagger(at); }
    bool partial() const override { return mecab_get_partial(at) != 0; }
    void set_partial(bool partial) override { mecab_set_partial(at, partial); }
    int lattice_level() const override { return mecab_get_lattice_level(at); }
    void set_lattice_level(int level) override { mecab_set_lattice_level(at, level); }
    bool all_morphs() const override { return mecab_get_all_morphs(at) != 0; }
    void set_all_morphs(bool all_morphs) override { mecab_set_all_morphs(at, all_morphs); }
    void set_theta(float theta) override { mecab_set_theta(at, theta); }
    float theta() const override { return mecab_get_theta(at); }
    const MeCab::DictionaryInfo *dictionary_info() const override {
        return mecab_dictionary_info(at);
    }
    const char *what() const override { return mecab_strerror(at); }

    mecab_t *const at;
};

class ModelOver final : public MeCab::Model {
public:
    explicit ModelOver(mecab_model_t *at) : at(at) {}
    ~ModelOver() override { mecab_model_destroy(at); }

    const MeCab::DictionaryInfo *dictionary_info() const override {
        return mecab_model_dictionary_info(at);
    }
    int transition_cost(unsigned short right, unsigned short left) const override {
        return mecab_model_transition_cost(at, right, left);
    }
    MeCab::Node *lookup(const char *begin, const char *end,
                        MeCab::Lattice *lattice) const override {
        return mecab_model_lookup(at, begin, end, at_of(lattice));
    }
    MeCab::Tagger *createTagger() const override;
    MeCab::Lattice *createLattice() const override;
    bool swap(MeCab::Model *other) override {
        ModelOver *given = static_cast<ModelOver *>(other);
        bool swapped = given != nullptr && mecab_model_swap(at, given->at) != 0;
        if (swapped) {
            given->at = nullptr;
            delete given;
        }
        return swapped;
    }

    mecab_model_t *at;
};

void destroy(mecab_t *at) { mecab_destroy(at); }
void destroy(mecab_lattice_t *at) { mecab_lattice_destroy(at); }
void destroy(mecab_model_t *at) { mecab_model_destroy(at); }

// Returns an object over what a C call returned, or nullptr if that is nullptr or memory runs out.
template <typename Over, typename At> Over *over(At *at) {
    Over *made = at != nullptr ? new (std::nothrow) Over(at) : nullptr;
    if (made == nullptr) destroy(at);
    return made;
}

} // namespace

MeCab::Tagger *ModelOver::createTagger() const {
    return over<TaggerOver>(mecab_model_new_tagger(at));
}
MeCab::Lattice *ModelOver::createLattice() const {
    return over<LatticeOver>(mecab_model_new_lattice(at));
}

namespace MeCab {

Lattice *createLattice() { return over<LatticeOver>(mecab_lattice_new()); }
Model *createModel(int count, char **words) {
    return over<ModelOver>(mecab_model_new(count, words));
}
Model *createModel(const char *line) { return over<ModelOver>(mecab_model_new2(line)); }
Tagger *createTagger(int count, char **words) { return over<TaggerOver>(mecab_new(count, words)); }
Tagger *createTagger(const char *line) { return over<TaggerOver>(mecab_new2(line)); }
void deleteLattice(Lattice *lattice) { delete lattice; }
void deleteModel(Model *model) { delete model; }
void deleteTagger(Tagger *tagger) { delete tagger; }
const char *getLastError() { return mecab_strerror(nullptr); }
const char *getTaggerError() { return mecab_strerror(nullptr); }

Lattice *Lattice::create() { return createLattice(); }
Model *Model::create(int count, char **words) { return createModel(count, words); }
Model *Model::create(const char *line) { return createModel(line); }
const char *Model::version() { return mecab_version(); }
Tagger *Tagger::create(int count, char **words) { return createTagger(count, words); }
Tagger *Tagger::create(const char *line) { return createTagger(line); }
const char *Tagger::version() { return mecab_version(); }

bool Tagger::parse(const Model &model, Lattice *lattice) {
    Tagger *tagger = model.createTagger();
    bool parsed = tagger != nullptr && tagger->parse(lattice);
    delete tagger;
    return parsed;
}

} // namespace MeCab
