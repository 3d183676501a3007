// Tests each function of MeCab's classes over the sample's dictionary: classes IMG. Each returns
// what the C call below it returns. A function that is not supported sets an error, and returns
// nullptr, 0 or false.
#include "helpers.h"
#include <cstring>
#include <string>

namespace {

const char *dictionary;

std::string words(const char *more) { return words_of(dictionary, more); }

bool is(const char *text, const char *wanted) {
    return text != nullptr && std::strcmp(text, wanted) == 0;
}

void texts_of_taggers() {
    char program[] = "classes", letter[] = "-d", wakati_type[] = "-Owakati", out[64];
    std::string path = dictionary;
    char *options[] = {program, letter, path.data(), wakati_type};
    MeCab::Tagger *tagger = MeCab::Tagger::create(words("").c_str()),
                  *wakati = MeCab::Tagger::create(4, options);
    CHECK(tagger && wakati && is(MeCab::Tagger::version(), "0.996"));
    CHECK(is(tagger->parse(LINE), PRINTED) && is(wakati->parse(LINE, std::strlen(LINE)), WAKATI));
    CHECK(wakati->parse(LINE, std::strlen(LINE), out, sizeof out) == out && is(out, WAKATI));
    CHECK(!wakati->parse(LINE, std::strlen(LINE), out, 3) &&
          is(wakati->what(), "output buffer overflow"));
    CHECK(tagger->dictionary_info()->size > 0 &&
          is(tagger->dictionary_info()->filename, dictionary));
    MeCab::deleteTagger(wakati);
    delete tagger;
    MeCab::Tagger *other = MeCab::createTagger(words("").c_str()),
                  *third = MeCab::createTagger(4, options);
    CHECK(other && is(other->parse(LINE), PRINTED) && third && is(third->parse(LINE), WAKATI));
    delete other;
    delete third;
    CHECK(!MeCab::createTagger("-d /nowhere.img") &&
          std::strstr(MeCab::getTaggerError(), "/nowhere.img"));
    CHECK(!MeCab::createModel("--nosuch") && is(MeCab::getLastError(), MeCab::getTaggerError()) &&
          is_left_out(MeCab::getLastError()));
}

void nodes_of_taggers() {
    MeCab::Tagger *tagger = MeCab::createTagger(words("-F%m/ -E.").c_str());
    char out[64];
    const MeCab::Node *node = tagger->parseToNode(LINE);
    CHECK(node && node->next->length == 9 && is(node->next->feature, "名詞,すもも"));
    CHECK(is(tagger->formatNode(node->next), "すもも/") &&
          tagger->formatNode(node->next->next, out, sizeof out) == out && is(out, "もも/"));
    CHECK(!tagger->formatNode(node->next, out, 3) && !tagger->formatNode(nullptr));
    CHECK(tagger->parseToNode(LINE, 9)->next->next->stat == MECAB_EOS_NODE);
    delete tagger;
}

void best_of_several() {
    MeCab::Tagger *tagger = MeCab::createTagger(words("").c_str());
    char out[64];
    CHECK(is(tagger->parseNBest(1, LINE), PRINTED) &&
          is(tagger->parseNBest(1, LINE, std::strlen(LINE)), PRINTED));
    CHECK(tagger->parseNBest(1, LINE, std::strlen(LINE), out, sizeof out) == out &&
          is(out, PRINTED));
    CHECK(!tagger->parseNBest(2, LINE) && is_left_out(tagger->what()) &&
          std::strstr(tagger->what(), "N-best"));
    CHECK(tagger->parseNBestInit(LINE) && is(tagger->next(), PRINTED) && !tagger->next() &&
          is_left_out(tagger->what()));
    CHECK(tagger->parseNBestInit(LINE, std::strlen(LINE)) && tagger->next(out, sizeof out) == out &&
          is(out, PRINTED));
    CHECK(tagger->parseNBestInit(LINE) && tagger->nextNode()->next->length == 9 &&
          !tagger->nextNode());
    delete tagger;
}

void settings_of_taggers() {
    MeCab::Tagger *tagger = MeCab::createTagger(words("").c_str());
    CHECK(tagger->request_type() == MECAB_ONE_BEST && !tagger->partial() && !tagger->all_morphs() &&
          tagger->lattice_level() == 0);
    tagger->set_partial(true);
    CHECK(tagger->partial() && !tagger->parse(LINE) && is_left_out(tagger->what()));
    tagger->set_partial(false);
    tagger->set_all_morphs(true);
    CHECK(tagger->all_morphs() && tagger->parseToNode(LINE)->next->next->next->length == 3);
    tagger->set_all_morphs(false);
    tagger->set_theta(0.5F);
    CHECK(tagger->theta() == 0.5F);
    tagger->set_lattice_level(1);
    CHECK(tagger->lattice_level() == 1 && is(tagger->parse(LINE), PRINTED));
    tagger->set_request_type(MECAB_ONE_BEST | MECAB_ALLOCATE_SENTENCE);
    CHECK(tagger->request_type() == (MECAB_ONE_BEST | MECAB_ALLOCATE_SENTENCE) &&
          is(tagger->parse(LINE), PRINTED));
    delete tagger;
}

void sentences_of_lattices(const MeCab::Tagger *tagger) {
    MeCab::Lattice *lattice = MeCab::Lattice::create();
    CHECK(!lattice->is_available() && !lattice->bos_node() && !lattice->eos_node() &&
          !lattice->toString() && !lattice->allocator());
    CHECK(!tagger->parse(lattice) && std::strstr(lattice->what(), "no sentence") &&
          !tagger->parse(nullptr));
    lattice->set_sentence(LINE);
    CHECK(lattice->is_available() && lattice->sentence() == LINE &&
          lattice->size() == std::strlen(LINE) && tagger->parse(lattice));
    CHECK(lattice->bos_node()->next->length == 9 && lattice->eos_node()->prev->length == 6);
    CHECK(lattice->begin_nodes()[0] == lattice->bos_node()->next &&
          lattice->begin_nodes(9) == lattice->eos_node()->prev);
    CHECK(lattice->end_nodes()[0] == lattice->bos_node() &&
          lattice->end_nodes(15) == lattice->eos_node());
    CHECK(lattice->begin_nodes(9)->bnext->length == 3 &&
          lattice->end_nodes(15)->enext->enext == lattice->eos_node()->prev);
    lattice->set_sentence(LINE, 9);
    CHECK(tagger->parse(lattice) && is(lattice->toString(), "すもも\t名詞,すもも\nEOS\n"));
    lattice->clear();
    CHECK(!lattice->is_available());
    MeCab::deleteLattice(lattice);
}

void texts_of_lattices(const MeCab::Tagger *tagger) {
    MeCab::Lattice *lattice = MeCab::createLattice();
    char out[64];
    lattice->set_sentence(LINE);
    CHECK(tagger->parse(lattice) && is(lattice->toString(), PRINTED) &&
          lattice->toString(out, sizeof out) == out && is(out, PRINTED));
    CHECK(!lattice->toString(out, 3) && is(lattice->what(), "output buffer overflow"));
    const MeCab::Node *node = lattice->bos_node()->next;
    CHECK(is(lattice->toString(node), "すもも\t名詞,すもも") &&
          lattice->toString(node, out, sizeof out) == out && is(out, "すもも\t名詞,すもも"));
    lattice->set_what("own");
    CHECK(is(lattice->what(), "own") && !lattice->next());
    lattice->set_request_type(MECAB_ONE_BEST);
    lattice->add_request_type(MECAB_NBEST);
    CHECK(lattice->has_request_type(MECAB_NBEST) &&
          lattice->request_type() == (MECAB_ONE_BEST | MECAB_NBEST));
    CHECK(tagger->parse(lattice) && is(lattice->enumNBestAsString(1), PRINTED) &&
          !lattice->enumNBestAsString(2) && is_left_out(lattice->what()));
    CHECK(tagger->parse(lattice) && lattice->enumNBestAsString(1, out, sizeof out) == out &&
          is(out, PRINTED) && !lattice->next());
    lattice->remove_request_type(MECAB_NBEST);
    CHECK(!lattice->has_request_type(MECAB_NBEST));
    lattice->set_theta(0.5F);
    lattice->set_Z(2);
    CHECK(lattice->theta() == 0.5F && lattice->Z() == 2);
    delete lattice;
}

void what_lattices_lack(const MeCab::Tagger *tagger) {
    MeCab::Lattice *lattice = MeCab::createLattice();
    CHECK(!lattice->newNode() && is_left_out(lattice->what()));
    CHECK(!lattice->has_constraint() && !lattice->boundary_constraint(0) &&
          !lattice->feature_constraint(0) && is_left_out(lattice->what()));
    lattice->set_sentence(LINE);
    lattice->set_boundary_constraint(3, MECAB_TOKEN_BOUNDARY);
    CHECK(!tagger->parse(lattice) && is_left_out(lattice->what()));
    lattice->set_sentence(LINE);
    lattice->set_feature_constraint(0, 9, "名詞");
    CHECK(!tagger->parse(lattice));
    lattice->set_sentence(LINE);
    CHECK(tagger->parse(lattice));
    lattice->set_result("x\ty\nEOS\n");
    CHECK(!lattice->toString() && !tagger->parse(lattice));
    delete lattice;
}

void models() {
    char program[] = "classes", letter[] = "-d";
    std::string path = dictionary;
    char *options[] = {program, letter, path.data()};
    MeCab::Model *model = MeCab::Model::create(3, options),
                 *wakati = MeCab::createModel(words("-Owakati").c_str());
    MeCab::Model *other = MeCab::Model::create(words("").c_str()),
                 *third = MeCab::createModel(3, options);
    CHECK(model && wakati && other && third && is(MeCab::Model::version(), "0.996") &&
          is(model->dictionary_info()->filename, dictionary));
    MeCab::Tagger *tagger = model->createTagger();
    MeCab::Lattice *lattice = wakati->createLattice();
    lattice->set_sentence(LINE);
    CHECK(tagger->parse(lattice) && is(lattice->toString(), WAKATI) &&
          MeCab::Tagger::parse(*model, lattice));
    CHECK(model->transition_cost(0, 0) == 0 && is_left_out(MeCab::getLastError()));
    const MeCab::Node *found = model->lookup(LINE, LINE + std::strlen(LINE), lattice);
    CHECK(found && found->surface == LINE && found->length == 9 && !found->bnext);
    CHECK(model->swap(other) && !model->swap(nullptr) && !model->swap(model) &&
          is(tagger->parse(LINE), PRINTED));
    delete lattice;
    delete tagger;
    MeCab::deleteModel(third);
    delete wakati;
    delete model;
}

} // namespace

int main(int given, char **paths) {
    CHECK(given == 2);
    dictionary = paths[1];
    MeCab::Tagger *tagger = MeCab::createTagger(words("").c_str());
    CHECK(tagger);
    texts_of_taggers();
    nodes_of_taggers();
    best_of_several();
    settings_of_taggers();
    sentences_of_lattices(tagger);
    texts_of_lattices(tagger);
    what_lattices_lack(tagger);
    models();
    delete tagger;
    std::puts("classes: each function returns what the call that it wraps returns");
    return 0;
}
