# The first overload that fits is the one that holds. Those that overlap are told apart by their order, and say so to mypy.

from typing import (
    Any,
    Dict,
    Hashable,
    Iterable,
    Iterator,
    List,
    Literal,
    Mapping,
    Optional,
    Protocol,
    Sequence,
    Tuple,
    TypeVar,
    Union,
    overload,
)

import numpy
import numpy.typing

_Name = TypeVar("_Name", bound=Hashable)
_Node = TypeVar("_Node", bound=Hashable, covariant=True)

_Numbers = numpy.typing.NDArray[numpy.uint32]
_Ids = numpy.typing.NDArray[Any]
_Columns = Sequence[Hashable]
_Axis = Optional[Literal[0, 1]]

class _HasArray(Protocol):
    def __array__(self) -> numpy.typing.NDArray[Any]: ...

class _Sparse(Protocol):
    def tocsr(self) -> Any: ...
    def tocoo(self) -> Any: ...

class _NetworkX(Protocol[_Node]):
    def __iter__(self) -> Iterator[_Node]: ...
    def is_directed(self) -> bool: ...
    def is_multigraph(self) -> bool: ...

class _IGraph(Protocol):
    def vcount(self) -> int: ...
    def get_edgelist(self) -> Any: ...

class _Frame(Protocol):
    @property
    def iloc(self) -> Any: ...
    @property
    def columns(self) -> Any: ...

_Array = Union[numpy.typing.NDArray[Any], _HasArray, memoryview]
_Pairs = Iterable[Tuple[int, int]]
_NamedPairs = Iterable[Tuple[_Name, _Name]]
_Listed = Union[_IGraph, _Pairs]

@overload
def core_numbers(edges: _Frame, *, columns: Optional[_Columns] = ...) -> Any: ...
@overload
def core_numbers(edges: _NetworkX[_Name]) -> Dict[_Name, int]: ...  # type: ignore[misc]
@overload
def core_numbers(edges: _Sparse) -> _Numbers: ...
@overload
def core_numbers(edges: _Array, vertices: Optional[int] = ..., *, axis: _Axis = ..., return_ids: Literal[False] = ...) -> _Numbers: ...  # type: ignore[misc]
@overload
def core_numbers(edges: _Array, vertices: Optional[int] = ..., *, axis: _Axis = ..., return_ids: Literal[True]) -> Tuple[_Numbers, _Ids]: ...  # type: ignore[misc]
@overload
def core_numbers(edges: _Listed, vertices: Optional[int] = ..., *, return_ids: Literal[False] = ...) -> List[int]: ...  # type: ignore[misc]
@overload
def core_numbers(edges: _Pairs, vertices: Optional[int] = ..., *, return_ids: Literal[True]) -> Tuple[List[int], List[int]]: ...
@overload
def core_numbers(edges: _NamedPairs[_Name]) -> Dict[_Name, int]: ...
@overload
def degeneracy_order(edges: _Frame, *, columns: Optional[_Columns] = ...) -> Tuple[Any, Any]: ...
@overload
def degeneracy_order(edges: _NetworkX[_Name]) -> Tuple[Dict[_Name, int], List[_Name]]: ...
@overload
def degeneracy_order(edges: _Sparse) -> Tuple[_Numbers, _Numbers]: ...
@overload
def degeneracy_order(edges: _Array, vertices: Optional[int] = ..., *, axis: _Axis = ..., return_ids: Literal[False] = ...) -> Tuple[_Numbers, _Numbers]: ...  # type: ignore[misc]
@overload
def degeneracy_order(edges: _Array, vertices: Optional[int] = ..., *, axis: _Axis = ..., return_ids: Literal[True]) -> Tuple[_Numbers, _Ids, _Ids]: ...  # type: ignore[misc]
@overload
def degeneracy_order(edges: _Listed, vertices: Optional[int] = ..., *, return_ids: Literal[False] = ...) -> Tuple[List[int], List[int]]: ...  # type: ignore[misc]
@overload
def degeneracy_order(edges: _Pairs, vertices: Optional[int] = ..., *, return_ids: Literal[True]) -> Tuple[List[int], List[int], List[int]]: ...
@overload
def degeneracy_order(edges: _NamedPairs[_Name]) -> Tuple[Dict[_Name, int], List[_Name]]: ...
@overload
def k_core(edges: _Frame, k: Optional[int] = ..., *, columns: Optional[_Columns] = ...) -> Any: ...
@overload
def k_core(edges: _NetworkX[_Name], k: Optional[int] = ...) -> List[_Name]: ...
@overload
def k_core(edges: _Sparse, k: Optional[int] = ...) -> _Numbers: ...
@overload
def k_core(edges: _Array, k: Optional[int] = ..., vertices: Optional[int] = ..., *, axis: _Axis = ..., return_ids: bool = ...) -> _Ids: ...  # type: ignore[misc]
@overload
def k_core(edges: _Listed, k: Optional[int] = ..., vertices: Optional[int] = ..., *, return_ids: bool = ...) -> List[int]: ...
@overload
def k_core(edges: _NamedPairs[_Name], k: Optional[int] = ...) -> List[_Name]: ...
@overload
def main_core(edges: _Frame, *, columns: Optional[_Columns] = ...) -> Any: ...
@overload
def main_core(edges: _NetworkX[_Name]) -> List[_Name]: ...
@overload
def main_core(edges: _Sparse) -> _Numbers: ...
@overload
def main_core(edges: _Array, vertices: Optional[int] = ..., *, axis: _Axis = ..., return_ids: bool = ...) -> _Ids: ...  # type: ignore[misc]
@overload
def main_core(edges: _Listed, vertices: Optional[int] = ..., *, return_ids: bool = ...) -> List[int]: ...
@overload
def main_core(edges: _NamedPairs[_Name]) -> List[_Name]: ...
@overload
def k_shell(edges: _Frame, k: Optional[int] = ..., *, columns: Optional[_Columns] = ...) -> Any: ...
@overload
def k_shell(edges: _NetworkX[_Name], k: Optional[int] = ...) -> List[_Name]: ...
@overload
def k_shell(edges: _Sparse, k: Optional[int] = ...) -> _Numbers: ...
@overload
def k_shell(edges: _Array, k: Optional[int] = ..., vertices: Optional[int] = ..., *, axis: _Axis = ..., return_ids: bool = ...) -> _Ids: ...  # type: ignore[misc]
@overload
def k_shell(edges: _Listed, k: Optional[int] = ..., vertices: Optional[int] = ..., *, return_ids: bool = ...) -> List[int]: ...
@overload
def k_shell(edges: _NamedPairs[_Name], k: Optional[int] = ...) -> List[_Name]: ...
@overload
def k_crust(edges: _Frame, k: Optional[int] = ..., *, columns: Optional[_Columns] = ...) -> Any: ...
@overload
def k_crust(edges: _NetworkX[_Name], k: Optional[int] = ...) -> List[_Name]: ...
@overload
def k_crust(edges: _Sparse, k: Optional[int] = ...) -> _Numbers: ...
@overload
def k_crust(edges: _Array, k: Optional[int] = ..., vertices: Optional[int] = ..., *, axis: _Axis = ..., return_ids: bool = ...) -> _Ids: ...  # type: ignore[misc]
@overload
def k_crust(edges: _Listed, k: Optional[int] = ..., vertices: Optional[int] = ..., *, return_ids: bool = ...) -> List[int]: ...
@overload
def k_crust(edges: _NamedPairs[_Name], k: Optional[int] = ...) -> List[_Name]: ...
@overload
def k_corona(edges: _Frame, k: int, *, columns: Optional[_Columns] = ...) -> Any: ...
@overload
def k_corona(edges: _NetworkX[_Name], k: int) -> List[_Name]: ...
@overload
def k_corona(edges: _Sparse, k: int) -> _Numbers: ...
@overload
def k_corona(edges: _Array, k: int, vertices: Optional[int] = ..., *, axis: _Axis = ..., return_ids: bool = ...) -> _Ids: ...  # type: ignore[misc]
@overload
def k_corona(edges: _Listed, k: int, vertices: Optional[int] = ..., *, return_ids: bool = ...) -> List[int]: ...
@overload
def k_corona(edges: _NamedPairs[_Name], k: int) -> List[_Name]: ...
@overload
def onion_layers(edges: _Frame, *, columns: Optional[_Columns] = ...) -> Any: ...
@overload
def onion_layers(edges: _NetworkX[_Name]) -> Dict[_Name, int]: ...  # type: ignore[misc]
@overload
def onion_layers(edges: _Sparse) -> _Numbers: ...
@overload
def onion_layers(edges: _Array, vertices: Optional[int] = ..., *, axis: _Axis = ..., return_ids: Literal[False] = ...) -> _Numbers: ...  # type: ignore[misc]
@overload
def onion_layers(edges: _Array, vertices: Optional[int] = ..., *, axis: _Axis = ..., return_ids: Literal[True]) -> Tuple[_Numbers, _Ids]: ...  # type: ignore[misc]
@overload
def onion_layers(edges: _Listed, vertices: Optional[int] = ..., *, return_ids: Literal[False] = ...) -> List[int]: ...  # type: ignore[misc]
@overload
def onion_layers(edges: _Pairs, vertices: Optional[int] = ..., *, return_ids: Literal[True]) -> Tuple[List[int], List[int]]: ...
@overload
def onion_layers(edges: _NamedPairs[_Name]) -> Dict[_Name, int]: ...
def degeneracy(
    edges: Union[_Frame, _NetworkX[Any], _Sparse, _Array, _Listed, _NamedPairs[Any]],
    vertices: Optional[int] = ...,
    *,
    axis: _Axis = ...,
    columns: Optional[_Columns] = ...,
    return_ids: bool = ...,
) -> int: ...
def check(
    edges: Union[_Frame, _NetworkX[Any], _Sparse, _Array, _Listed, _NamedPairs[Any]],
    core: Union[numpy.typing.NDArray[Any], Sequence[int], Iterable[int], Mapping[Any, int]],
    order: Union[numpy.typing.NDArray[Any], Iterable[Any]],
    vertices: Optional[int] = ...,
    *,
    axis: _Axis = ...,
    columns: Optional[_Columns] = ...,
    ids: Union[None, numpy.typing.NDArray[Any], Sequence[int]] = ...,
) -> bool: ...
