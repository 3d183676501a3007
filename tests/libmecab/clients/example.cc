// A program like those in MeCab's documentation, in C++: example DICTIONARY PART. The parts are
// those of example.c.
#include <iostream>
#include <mecab.h>
#include <memory>
#include <string>

namespace {

constexpr int PATHS = 3;
constexpr char SENTENCE[] = "太郎は次郎が持っている本を花子に渡した。";

int report_rejection(const char *why) {
    std::cout << "refused: " << why << "\n";
    return 1;
}

void print_node(const MeCab::Node *node) {
    if (node->stat == MECAB_BOS_NODE)
        std::cout << "BOS";
    else if (node->stat == MECAB_EOS_NODE)
        std::cout << "EOS";
    else
        std::cout.write(node->surface, node->length);
    std::cout << ' ' << node->feature << ' ' << node->surface - SENTENCE << ' ' << node->rcAttr
              << ' ' << node->lcAttr << ' ' << node->posid << ' '
              << static_cast<int>(node->char_type) << ' ' << static_cast<int>(node->stat) << ' '
              << static_cast<int>(node->isbest) << ' ' << node->alpha << ' ' << node->beta << ' '
              << node->prob << ' ' << node->cost << '\n';
}

void print_dictionaries(const MeCab::DictionaryInfo *info) {
    for (; info != nullptr; info = info->next) {
        std::cout << info->charset << ' ' << info->size << ' ' << info->type << ' ' << info->version
                  << '\n';
        std::cout << info->lsize << ' ' << info->rsize << '\n';
    }
}

int with_tagger(MeCab::Tagger *tagger) {
    const char *text = tagger->parse(SENTENCE);
    if (text == nullptr) return report_rejection(tagger->what());
    std::cout << "INPUT: " << SENTENCE << "\nRESULT:\n" << text;
    const MeCab::Node *node = tagger->parseToNode(SENTENCE);
    if (node == nullptr) return report_rejection(tagger->what());
    for (; node != nullptr; node = node->next) print_node(node);
    print_dictionaries(tagger->dictionary_info());
    return 0;
}

int with_tagger_nbest(MeCab::Tagger *tagger) {
    const char *text = tagger->parseNBest(PATHS, SENTENCE);
    if (text == nullptr)
        report_rejection(tagger->what());
    else
        std::cout << "NBEST:\n" << text;
    if (!tagger->parseNBestInit(SENTENCE)) return report_rejection(tagger->what());
    for (int i = 0; i < PATHS; i++) {
        text = tagger->next();
        if (text == nullptr) return report_rejection(tagger->what());
        std::cout << i << ":\n" << text;
    }
    return 0;
}

int with_lattice(const MeCab::Tagger *tagger, MeCab::Lattice *lattice) {
    lattice->set_sentence(SENTENCE);
    if (!tagger->parse(lattice)) return report_rejection(lattice->what());
    std::cout << "INPUT: " << lattice->sentence() << "\nRESULT:\n" << lattice->toString();
    for (const MeCab::Node *node = lattice->bos_node(); node != nullptr; node = node->next)
        print_node(node);
    for (size_t at = 0; at <= lattice->size(); at++) {
        for (const MeCab::Node *node = lattice->begin_nodes(at); node != nullptr;
             node = node->bnext) {
            if (node->isbest) print_node(node);
        }
    }
    return 0;
}

int with_lattice_nbest(const MeCab::Tagger *tagger, MeCab::Lattice *lattice) {
    lattice->add_request_type(MECAB_NBEST);
    lattice->set_sentence(SENTENCE);
    if (!tagger->parse(lattice)) return report_rejection(lattice->what());
    for (int i = 0; i < PATHS; i++) {
        if (!lattice->next()) return report_rejection(lattice->what());
        std::cout << i << ":\n" << lattice->toString();
    }
    return 0;
}

int with_part(const std::string &part, MeCab::Tagger *tagger, MeCab::Lattice *lattice) {
    if (part == "tagger") return with_tagger(tagger);
    if (part == "tagger-nbest") return with_tagger_nbest(tagger);
    return part == "lattice" ? with_lattice(tagger, lattice) : with_lattice_nbest(tagger, lattice);
}

} // namespace

int main(int given, char **words) {
    if (given != 3) return 2;
    std::unique_ptr<MeCab::Model> model(
        MeCab::createModel((std::string("-d ") + words[1]).c_str()));
    if (!model) return report_rejection(MeCab::getLastError());
    std::unique_ptr<MeCab::Tagger> tagger(model->createTagger());
    std::unique_ptr<MeCab::Lattice> lattice(model->createLattice());
    return tagger && lattice ? with_part(words[2], tagger.get(), lattice.get())
                             : report_rejection(MeCab::getLastError());
}
