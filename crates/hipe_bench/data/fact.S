{module, fact}.  %% version = 0

{exports, [{fac,1},{module_info,0},{module_info,1}]}.

{attributes, []}.

{labels, 12}.


{function, fac, 1, 2}.
  {label,1}.
    {line,[{location,"fact.erl",4}]}.
    {func_info,{atom,fact},{atom,fac},1}.
  {label,2}.
    {test,is_eq_exact,{f,3},[{x,0},{integer,0}]}.
    {move,{integer,1},{x,0}}.
    return.
  {label,3}.
    {allocate,1,1}.
    {move,{x,0},{y,0}}.
    {line,[{location,"fact.erl",7}]}.
    {gc_bif,'-',{f,0},1,[{y,0},{integer,1}],{x,0}}.
    {call,1,{f,2}}.
    {line,[{location,"fact.erl",7}]}.
    {gc_bif,'*',{f,0},1,[{y,0},{x,0}],{x,0}}.
    {deallocate,1}.
    return.


{function, sum, 2, 5}.
  {label,4}.
    {func_info,{atom,fact},{atom,sum},2}.
  {label,5}.
    {test,is_nonempty_list,{f,6},[{x,0}]}.
    {allocate,2,2}.
    {get_list,{x,0},{y,1},{x,0}}.
    {move,{x,1},{y,0}}.
    {call,2,{f,5}}.
    {gc_bif,'+',{f,0},2,[{x,0},{y,1}],{x,0}}.
    {put_list,{x,0},nil,{x,0}}.
    {put_tuple2,{x,0},{list,[{atom,ok},{x,0},{y,0}]}}.
    {test_heap,2,2}.
    {deallocate,2}.
    return.
  {label,6}.
    {test,is_nil,{f,4},[{x,0}]}.
    {move,{x,1},{x,0}}.
    return.


{function, module_info, 0, 8}.
  {label,7}.
    {line,[]}.
    {func_info,{atom,fact},{atom,module_info},0}.
  {label,8}.
    {move,{atom,fact},{x,0}}.
    {call_ext_only,1,{extfunc,erlang,get_module_info,1}}.


{function, module_info, 1, 10}.
  {label,9}.
    {line,[]}.
    {func_info,{atom,fact},{atom,module_info},1}.
  {label,10}.
    {move,{x,0},{x,1}}.
    {move,{atom,fact},{x,0}}.
    {call_ext_only,2,{extfunc,erlang,get_module_info,2}}.
