// Kernels in the words of GraphBLAS, by SuiteSparse:GraphBLAS, on as many cores as it takes. The algorithms are written
// out here, since Debian has no LAGraph. Labels of Graphalytics are no product of matrices: those are a loop over the
// rows, on one core. The words are told in kernels.h.

extern "C" {
#include <GraphBLAS.h>
}

#include <numeric>

#include "kernels.h"

namespace {

/// The greatest weight is that of graphs.cpp, and a bucket of distances is a sixteenth of it.
constexpr uint64_t WIDTH = 1000000 / 16;

#define TRY(call) check((call) == GrB_SUCCESS ? 0 : 1, #call)

GrB_Vector vector_of(GrB_Type type, GrB_Index size, int sparsity) {
    GrB_Vector made;
    TRY(GrB_Vector_new(&made, type, size));
    TRY(GxB_Vector_Option_set(made, GxB_SPARSITY_CONTROL, sparsity));
    return made;
}

GrB_Index count_of(GrB_Vector vector) {
    GrB_Index count;
    TRY(GrB_Vector_nvals(&count, vector));
    return count;
}

/// A matrix whose row of a vertex has the weights of its edges.
class Matrix {
public:
    explicit Matrix(const Edges& edges) : vertices(edges.vertices) {
        TRY(GrB_init(GrB_NONBLOCKING));
        std::vector<GrB_Index> rows, columns;
        Table weights;
        for (const Edge& edge : edges.list) {
            rows.insert(rows.end(), {edge.source, edge.target});
            columns.insert(columns.end(), {edge.target, edge.source});
            weights.insert(weights.end(), 2, edge.weight);
        }
        TRY(GrB_Matrix_new(&matrix, GrB_UINT64, vertices, vertices));
        TRY(GrB_Matrix_build_UINT64(matrix, rows.data(), columns.data(), weights.data(), rows.size(),
                                    GrB_FIRST_UINT64));
        TRY(GrB_Matrix_wait(matrix, GrB_MATERIALIZE));
    }

    /// A level is a product of the level before it, over what isn't reached yet: by rows, or by columns where it is
    /// large.
    Table search(uint32_t root) const {
        GrB_Vector levels = vector_of(GrB_UINT64, vertices, GxB_BITMAP + GxB_FULL);
        GrB_Vector level = vector_of(GrB_BOOL, vertices, GxB_AUTO_SPARSITY);
        TRY(GrB_Vector_setElement_BOOL(level, true, root));
        for (uint64_t number = 0; count_of(level) > 0; ++number) {
            TRY(GrB_Vector_assign_UINT64(levels, level, nullptr, number, GrB_ALL, vertices, GrB_DESC_S));
            const bool is_large = count_of(level) > vertices / 32;
            TRY(GxB_Vector_Option_set(level, GxB_SPARSITY_CONTROL, is_large ? GxB_BITMAP : GxB_SPARSE));
            TRY(is_large ? GrB_mxv(level, levels, nullptr, GxB_ANY_PAIR_BOOL, matrix, level, GrB_DESC_RSC)
                         : GrB_vxm(level, levels, nullptr, GxB_ANY_PAIR_BOOL, level, matrix, GrB_DESC_RSC));
        }
        GrB_Vector_free(&level);
        return table_of(levels);
    }

    /// Each vertex takes the least vertex that its neighbours point to, and then the one that this points to, until
    /// nothing changes.
    Table components() const {
        std::vector<GrB_Index> places(vertices);
        Table values(vertices);
        std::iota(places.begin(), places.end(), 0);
        std::iota(values.begin(), values.end(), 0);
        GrB_Vector least = vector_of(GrB_UINT64, vertices, GxB_FULL),
                   jumped = vector_of(GrB_UINT64, vertices, GxB_FULL);
        TRY(GrB_Vector_build_UINT64(jumped, places.data(), values.data(), vertices, GrB_FIRST_UINT64));
        for (bool is_done = false; !is_done;) {
            TRY(GrB_Vector_apply(least, nullptr, nullptr, GrB_IDENTITY_UINT64, jumped, nullptr));
            TRY(GrB_mxv(least, nullptr, GrB_MIN_UINT64, GrB_MIN_SECOND_SEMIRING_UINT64, matrix, jumped, nullptr));
            GrB_Index count = vertices;
            Table next(vertices);
            TRY(GrB_Vector_extractTuples_UINT64(places.data(), next.data(), &count, least));
            TRY(GrB_Vector_extract(jumped, nullptr, nullptr, least, next.data(), vertices, nullptr));
            is_done = next == values;
            values = std::move(next);
        }
        GrB_Vector_free(&jumped);
        Table table = table_of(least);
        for (uint64_t& vertex : table) ++vertex;
        return table;
    }

    Table labels() const {
        GxB_Iterator row;
        TRY(GxB_Iterator_new(&row));
        TRY(GxB_rowIterator_attach(row, matrix, nullptr));
        std::vector<uint32_t> old(vertices), now(vertices), counts(vertices, 0), neighbours;
        std::iota(old.begin(), old.end(), 0);
        for (int round = 0; round < ROUNDS; ++round) {
            for (uint32_t vertex = 0; vertex < vertices; ++vertex) {
                neighbours.clear();
                for (GrB_Info info = GxB_rowIterator_seekRow(row, vertex); info == GrB_SUCCESS;
                     info = GxB_rowIterator_nextCol(row))
                    neighbours.push_back(GxB_rowIterator_getColIndex(row));
                now[vertex] = most_frequent(neighbours, old, counts, old[vertex]);
            }
            std::swap(old, now);
        }
        GxB_Iterator_free(&row);
        Table table(old.begin(), old.end());
        for (uint64_t& label : table) ++label;
        return table;
    }

    /// Bucket by bucket of distances: the near ones of those that aren't passed on yet are passed on, until there are
    /// none.
    Table paths(uint32_t root) const {
        GrB_Vector distances = vector_of(GrB_UINT64, vertices, GxB_FULL);
        GrB_Vector waiting = vector_of(GrB_UINT64, vertices, GxB_SPARSE),
                   near = vector_of(GrB_UINT64, vertices, GxB_SPARSE);
        GrB_Vector found = vector_of(GrB_UINT64, vertices, GxB_AUTO_SPARSITY);
        GrB_Vector are_less = vector_of(GrB_BOOL, vertices, GxB_AUTO_SPARSITY);
        TRY(GrB_Vector_assign_UINT64(distances, nullptr, nullptr, NO_WALK, GrB_ALL, vertices, nullptr));
        TRY(GrB_Vector_setElement_UINT64(distances, 0, root));
        TRY(GrB_Vector_setElement_UINT64(waiting, 0, root));
        for (uint64_t bound = WIDTH; count_of(waiting) > 0;) {
            TRY(GrB_Vector_select_UINT64(near, nullptr, nullptr, GrB_VALUELT_UINT64, waiting, bound, nullptr));
            if (count_of(near) == 0) {
                uint64_t least = NO_WALK;
                TRY(GrB_Vector_reduce_UINT64(&least, nullptr, GrB_MIN_MONOID_UINT64, waiting, nullptr));
                bound = (least / WIDTH + 1) * WIDTH;
                continue;
            }
            TRY(GrB_Vector_select_UINT64(waiting, nullptr, nullptr, GrB_VALUEGE_UINT64, waiting, bound, nullptr));
            TRY(GrB_vxm(found, nullptr, nullptr, GrB_MIN_PLUS_SEMIRING_UINT64, near, matrix, nullptr));
            TRY(GrB_Vector_eWiseMult_BinaryOp(are_less, nullptr, nullptr, GrB_LT_UINT64, found, distances, nullptr));
            TRY(GrB_Vector_apply(near, are_less, nullptr, GrB_IDENTITY_UINT64, found, GrB_DESC_R));
            TRY(GrB_Vector_assign(distances, near, nullptr, near, GrB_ALL, vertices, GrB_DESC_S));
            TRY(GrB_Vector_eWiseAdd_BinaryOp(waiting, nullptr, nullptr, GrB_MIN_UINT64, waiting, near, nullptr));
        }
        for (GrB_Vector* vector : {&waiting, &near, &found, &are_less}) GrB_Vector_free(vector);
        return table_of(distances);
    }

private:
    /// The values of a vector, and the vector is given back.
    Table table_of(GrB_Vector vector) const {
        GrB_Index count = count_of(vector);
        std::vector<GrB_Index> places(count);
        Table values(count), table(vertices, NO_WALK);
        TRY(GrB_Vector_extractTuples_UINT64(places.data(), values.data(), &count, vector));
        for (GrB_Index at = 0; at < count; ++at) table[places[at]] = values[at];
        GrB_Vector_free(&vector);
        return table;
    }

    GrB_Index vertices;
    GrB_Matrix matrix;
};

}  // namespace

int main(int count, char** words) { return run<Matrix>(count, words); }
