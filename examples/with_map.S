{module, with_map}.  %% version = 0

{exports, [{counted,2},{module_info,0},{module_info,1}]}.

{attributes, []}.

{labels, 9}.


{function, counted, 2, 2}.
  {label,1}.
    {line,[{location,"with_map.erl",5}]}.
    {func_info,{atom,with_map},{atom,counted},2}.
  {label,2}.
    {test,is_map,{f,4},[{x,1}]}.
    {get_map_elements,{f,3},{x,1},{list,[{x,0},{x,2}]}}.
    {line,[{location,"with_map.erl",7}]}.
    {gc_bif,'+',{f,0},3,[{x,2},{integer,1}],{x,2}}.
    {line,[{location,"with_map.erl",7}]}.
    {put_map_exact,{f,0},{x,1},{x,0},3,{list,[{x,0},{x,2}]}}.
    return.
  {label,3}.
    {put_map_assoc,{f,0},{x,1},{x,0},2,{list,[{x,0},{integer,1}]}}.
    return.
  {label,4}.
    {test_heap,3,2}.
    {put_tuple2,{x,0},{list,[{atom,badmap},{x,1}]}}.
    {line,[{location,"with_map.erl",8}]}.
    {call_ext_only,1,{extfunc,erlang,error,1}}.


{function, module_info, 0, 6}.
  {label,5}.
    {line,[]}.
    {func_info,{atom,with_map},{atom,module_info},0}.
  {label,6}.
    {move,{atom,with_map},{x,0}}.
    {line,[]}.
    {call_ext_only,1,{extfunc,erlang,get_module_info,1}}.


{function, module_info, 1, 8}.
  {label,7}.
    {line,[]}.
    {func_info,{atom,with_map},{atom,module_info},1}.
  {label,8}.
    {move,{x,0},{x,1}}.
    {move,{atom,with_map},{x,0}}.
    {line,[]}.
    {call_ext_only,2,{extfunc,erlang,get_module_info,2}}.
